//! A job file read: docs/JOBS.md says what it holds.
use crate::mistake::{Mistake, meant, quoted};
use pocket::{Params, RawJob};
use std::iter::Peekable;

/// A word of a line, and the bytes before it.
#[derive(Clone, Copy)]
struct Word<'a> {
    text: &'a str,
    at: usize,
}

/// A line that has a word, without its comment.
struct Line<'a> {
    number: usize,
    text: &'a str,
    words: Vec<Word<'a>>,
    /// The bytes before what follows its last word.
    end: usize,
}

impl<'a> Line<'a> {
    fn new(number: usize, text: &'a str) -> Option<Line<'a>> {
        let code = text.split('#').next().unwrap_or("");
        let place = |word: &str| word.as_ptr() as usize - text.as_ptr() as usize;
        let words: Vec<Word> = code.split_whitespace().map(|text| Word { text, at: place(text) }).collect();
        let end = words.last().map(|w| w.at + w.text.len())?;
        Some(Line { number, text, words, end })
    }

    fn name(&self) -> Word<'a> {
        self.words[0]
    }

    fn mistake(&self, at: usize, expected: impl Into<String>, found: impl Into<String>) -> Mistake {
        let column = self.text[..at].chars().count() + 1;
        let (expected, found) = (expected.into(), found.into());
        Mistake { line: self.number, column, expected, found, text: self.text.into() }
    }

    fn wrong(&self, word: Word, expected: impl Into<String>) -> Mistake {
        self.mistake(word.at, expected, quoted(word.text))
    }

    /// The word at a place; `expected` says what it is where it is missing.
    fn word(&self, k: usize, expected: &str) -> Result<Word<'a>, Mistake> {
        let missing = || self.mistake(self.end, expected, "the end of the line");
        self.words.get(k).copied().ok_or_else(missing)
    }

    /// The words after the name, which are so many.
    fn only(&self, most: usize) -> Result<(), Mistake> {
        self.words.get(most).map_or(Ok(()), |&word| Err(self.wrong(word, "the end of the line")))
    }

    /// The one word after the name.
    fn value<T>(&self, expected: &str, read: impl Fn(&str) -> Option<T>) -> Result<T, Mistake> {
        let value = self.read(self.word(1, expected)?, expected, read)?;
        self.only(2)?;
        Ok(value)
    }

    fn read<T>(&self, word: Word, expected: &str, read: impl Fn(&str) -> Option<T>) -> Result<T, Mistake> {
        read(word.text).ok_or_else(|| self.wrong(word, expected))
    }
}

const NUMBER: &str = "a number";
const COUNT: &str = "a whole number of 0 or more";
const LENGTH: &str = "a whole number of 0 to 4294967295";

/// The 16 hexadecimal digits of a float's bits, or a decimal number, `inf`, `nan`.
fn number(word: &str) -> Option<f64> {
    if word.len() == 16 && word.bytes().all(|b| matches!(b, b'0'..=b'9' | b'a'..=b'f')) {
        return u64::from_str_radix(word, 16).ok().map(f64::from_bits);
    }
    word.parse().ok()
}

fn setting(word: &str) -> Option<Option<f64>> {
    if word == "none" { Some(None) } else { number(word).map(Some) }
}

fn flag(word: &str) -> Option<bool> {
    ["0", "1"].iter().position(|w| *w == word).map(|k| k == 1)
}

fn count(word: &str) -> Option<usize> {
    word.parse().ok()
}

fn length(word: &str) -> Option<u32> {
    word.parse().ok()
}

/// All names of a job file.
const NAMES: [&str; 25] = [
    "diameter",
    "engagement",
    "step_down",
    "top",
    "bottom",
    "leave",
    "safe_z",
    "feed",
    "plunge_feed",
    "link_feed",
    "ramp",
    "helix",
    "chip",
    "resolution",
    "keep_down",
    "pocket",
    "stock",
    "region",
    "lent_triples",
    "lent_rows",
    "lent_bytes",
    "lent_u32",
    "lent_f32",
    "lent_f64",
    "verts",
];

/// The parameter of such a name, if it is a number.
fn parameter<'p>(p: &'p mut Params, name: &str) -> Option<&'p mut f64> {
    Some(match name {
        "diameter" => &mut p.tool_diameter,
        "engagement" => &mut p.max_engagement_deg,
        "step_down" => &mut p.step_down,
        "top" => &mut p.top,
        "bottom" => &mut p.bottom,
        "leave" => &mut p.stock_to_leave,
        "safe_z" => &mut p.safe_z,
        "feed" => &mut p.feed,
        "plunge_feed" => &mut p.plunge_feed,
        "link_feed" => &mut p.link_feed,
        "ramp" => &mut p.helix_ramp_deg,
        _ => return None,
    })
}

/// The parameter of such a name, if it may be left out.
fn option<'p>(p: &'p mut Params, name: &str) -> Option<&'p mut Option<f64>> {
    Some(match name {
        "helix" => &mut p.helix_radius,
        "chip" => &mut p.chip_thinning_max,
        "resolution" => &mut p.resolution,
        _ => return None,
    })
}

/// What a file lends of such a name.
fn lent<'j>(job: &'j mut RawJob, name: &str) -> Option<&'j mut Option<usize>> {
    Some(match name {
        "lent_triples" => &mut job.lent.triples,
        "lent_rows" => &mut job.lent.rows,
        "lent_bytes" => &mut job.lent.bytes,
        "lent_u32" => &mut job.lent.words,
        "lent_f32" => &mut job.lent.singles,
        "lent_f64" => &mut job.lent.doubles,
        _ => return None,
    })
}

struct Reader<'a, I: Iterator<Item = Line<'a>>> {
    lines: Peekable<I>,
    /// The last line of the file, and its number.
    last: (usize, &'a str),
    /// Names read so far, and their lines.
    seen: Vec<(&'a str, usize)>,
    job: RawJob,
    pocket: Vec<u32>,
    stock: Vec<Vec<u32>>,
}

/// The job of a file.
pub fn parse(text: &str) -> Result<RawJob, Mistake> {
    let text = text.strip_prefix('\u{feff}').unwrap_or(text);
    let last = text.lines().enumerate().last().map_or((1, ""), |(k, line)| (k + 1, line));
    let lines = text.lines().enumerate().filter_map(|(k, text)| Line::new(k + 1, text)).peekable();
    let job = RawJob::new(Params::default());
    Reader { lines, last, seen: Vec::new(), job, pocket: Vec::new(), stock: Vec::new() }.file()
}

/// The job of a file's bytes.
pub fn parse_bytes(bytes: &[u8]) -> Result<RawJob, Mistake> {
    let error = match std::str::from_utf8(bytes) {
        Ok(text) => return parse(text),
        Err(error) => error,
    };
    let (good, bad) = bytes.split_at(error.valid_up_to());
    let good = String::from_utf8_lossy(good);
    let start = good.rfind('\n').map_or(0, |k| k + 1);
    let before = &good[start..];
    let rest = bad.split(|b| *b == b'\n').next().unwrap_or(bad);
    Err(Mistake {
        line: good.matches('\n').count() + 1,
        column: before.chars().count() + 1,
        expected: "text in UTF-8".into(),
        found: format!("the byte {:#04x}", bad[0]),
        text: format!("{before}{}", String::from_utf8_lossy(rest)),
    })
}

impl<'a, I: Iterator<Item = Line<'a>>> Reader<'a, I> {
    fn file(mut self) -> Result<RawJob, Mistake> {
        while let Some(line) = self.lines.next() {
            self.line(&line)?;
        }
        for name in ["pocket", "verts"] {
            if self.first(name).is_none() {
                return Err(self.ended(format!("a line `{name}`")));
            }
        }
        for lengths in std::iter::once(&self.pocket).chain(&self.stock) {
            self.job.regions.push(lengths.len() as u32);
            self.job.lengths.extend(lengths);
        }
        Ok(self.job)
    }

    /// The line on which a name was read.
    fn first(&self, name: &str) -> Option<usize> {
        self.seen.iter().find(|(seen, _)| *seen == name).map(|(_, line)| *line)
    }

    fn ended(&self, expected: impl Into<String>) -> Mistake {
        let (line, text) = self.last;
        let column = text.chars().count() + 1;
        Mistake {
            line,
            column,
            expected: expected.into(),
            found: "the end of the file".into(),
            text: text.into(),
        }
    }

    fn line(&mut self, line: &Line<'a>) -> Result<(), Mistake> {
        let name = line.name().text;
        if let Some(first) = self.first(name) {
            let found = format!("{} again, first on line {first}", quoted(name));
            return Err(line.mistake(line.name().at, "each name once", found));
        }
        self.seen.push((name, line.number));
        if let Some(value) = parameter(&mut self.job.params, name) {
            *value = line.value(NUMBER, number)?;
        } else if let Some(value) = option(&mut self.job.params, name) {
            *value = line.value("a number or `none`", setting)?;
        } else if let Some(value) = lent(&mut self.job, name) {
            *value = Some(line.value(COUNT, count)?);
        } else {
            match name {
                "keep_down" => self.job.params.keep_tool_down = line.value("0 or 1", flag)?,
                "pocket" => self.pocket = lengths(line)?,
                "stock" => self.regions(line)?,
                "verts" => self.vertices(line)?,
                _ => return Err(self.unknown(line)),
            }
        }
        Ok(())
    }

    /// `stock none`, or a count and as many lines `region`.
    fn regions(&mut self, line: &Line<'a>) -> Result<(), Mistake> {
        let read = |word: &str| if word == "none" { Some(None) } else { count(word).map(Some) };
        let Some(regions) = line.value("`none`, or a whole number of 0 or more", read)? else {
            return Ok(());
        };
        self.job.whole = false;
        for k in 1..=regions {
            let expected = format!("a line `region` ({k} of {regions})");
            let Some(line) = self.lines.next() else {
                return Err(self.ended(expected));
            };
            if line.name().text != "region" {
                return Err(line.wrong(line.name(), expected));
            }
            self.stock.push(lengths(&line)?);
        }
        Ok(())
    }

    /// A count, and as many lines x, y.
    fn vertices(&mut self, line: &Line<'a>) -> Result<(), Mistake> {
        let vertices = line.value(COUNT, count)?;
        for k in 1..=vertices {
            let Some(line) = self.lines.next() else {
                return Err(self.ended(format!("x and y of vertex {k} of {vertices}")));
            };
            let x = line.read(line.name(), &format!("x of vertex {k} of {vertices}, a number"), number)?;
            let expected = format!("y of vertex {k} of {vertices}, a number");
            let y = line.read(line.word(1, &expected)?, &expected, number)?;
            line.only(2)?;
            self.job.vertices.extend([x, y]);
        }
        Ok(())
    }

    fn unknown(&self, line: &Line<'a>) -> Mistake {
        let name = line.name();
        if name.text == "region" {
            return line.wrong(name, "a line `stock` with the number of its regions first");
        }
        let vertices = self.job.vertices.len() / 2;
        if number(name.text).is_some() && self.first("verts").is_some() {
            return line.wrong(name, format!("no vertex after the {vertices} of `verts`"));
        }
        let hint = meant(name.text, NAMES).map_or(String::new(), |n| format!(" (`{n}`?)"));
        line.wrong(name, format!("a name of docs/JOBS.md{hint}"))
    }
}

fn lengths(line: &Line) -> Result<Vec<u32>, Mistake> {
    line.words[1..].iter().map(|&word| line.read(word, LENGTH, length)).collect()
}
