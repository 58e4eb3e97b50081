//! A refusal: the number of the question of document 01 that is answered no.
use std::error::Error;
use std::fmt;

#[derive(Clone, Copy, Debug, PartialEq, Eq, Hash)]
pub struct Refusal {
    pub number: u32,
}

/// The number of the last question.
pub const LAST: u32 = QUESTIONS.len() as u32;

/// Document 01's questions, the first in front.
const QUESTIONS: [&str; 18] = [
    "tool diameter finite and above 0?",
    "max engagement finite, at least 1, below 180?",
    "step-down finite and above 0?",
    "top and bottom finite, bottom below top?",
    "stock to leave finite, 0 or more?",
    "safe Z finite, above top?",
    "feed, plunge feed, link feed finite and above 0?",
    "helix ramp finite, above 0, at most 45?",
    "helix radius absent, or finite and above 0?",
    "chip thinning limit absent, or finite and 1 or more?",
    "resolution absent, or finite, above 0, at most diameter/60 + 1e-12?",
    "diameter 0.1 to 100; cell (resolution, else diameter/80) at least diameter/1000; stock to leave at most 100; \
     helix radius, if given, at most 1,000; (top - bottom)/step-down at most 10,000?",
    "each loop 3 or more vertices, at most 64 islands a region, 16 stock regions, 4,096 vertices in all, loop lengths \
     that add up exactly to the vertices lent, coordinates finite and within +-10,000?",
    "raster sides at most 4,096, cells N at most 1,048,576?",
    "every lent slice at least as long as the closing list says?",
    "do the triples fit?",
    "do the chunk rows fit?",
    "is the chunk list non-empty, or the starting stock empty?",
];

impl Refusal {
    /// An answer of the library: 0 is none.
    pub(crate) fn answered(number: u32) -> Result<(), Refusal> {
        if number == 0 { Ok(()) } else { Err(Refusal { number }) }
    }

    /// The question that is answered no. A leaf that is called alone asks 12 to 15 of its own arguments.
    pub fn question(self) -> &'static str {
        let place = (self.number as usize).wrapping_sub(1);
        QUESTIONS.get(place).copied().unwrap_or("no question of document 01")
    }
}

impl fmt::Display for Refusal {
    fn fmt(&self, f: &mut fmt::Formatter<'_>) -> fmt::Result {
        write!(f, "{}: {} No", self.number, self.question())
    }
}

impl Error for Refusal {}
