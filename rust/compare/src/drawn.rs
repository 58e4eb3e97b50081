//! Jobs of all kinds, drawn for a comparison at scale.
use crate::extreme::{damaged, torn};
use crate::planned::{Same, compared, compared_raw, trimmed};
use crate::raw::Raw;
use oracle::entry;
use oracle::generate::{self, Rng};
use oracle::job::Job;
use oracle::stored::small;

/// The kinds of the generator, and those that are made here of its jobs: floats that are special, lists that are torn.
pub const KINDS: usize = generate::KINDS.len() + generate::NAMED.len() + 2;

pub fn kind(k: usize) -> &'static str {
    generate::KINDS.iter().chain(&generate::NAMED).chain(&["extreme", "torn"]).nth(k).unwrap()
}

/// How large a job may be: at least this engagement, at most so many cells.
#[derive(Clone, Copy)]
pub struct Size {
    pub engagement: f64,
    pub cells: usize,
}

/// A job of the kind that is small enough, and its seed for `gen`. Most special floats are turned back at once; half of
/// the jobs with them are not.
fn job(r: &mut Rng, kind: &str, size: Size) -> (Job, u64) {
    let fit = kind == "extreme" && r.chance(0.5);
    loop {
        let seed = r.bits() >> 32;
        let job = match kind {
            "extreme" => damaged(r, generate::job(seed, None).unwrap().0),
            "torn" => generate::job(seed, None).unwrap().0,
            _ => generate::job(seed, Some(kind)).unwrap().0,
        };
        if small(&job, size.engagement, size.cells) && !(fit && entry::refused(&job).is_some()) {
            return (job, seed);
        }
    }
}

/// Draws a job by these bits and plans it on both sides: how it was answered, or the difference.
pub fn drawn(bits: u64, kind: &str, size: Size) -> Result<Same, String> {
    let mut r = Rng(bits);
    let (job, seed) = job(&mut r, kind, size);
    let answer = match kind {
        "torn" => {
            let job = trimmed(&job);
            let raw = Raw::varied(&mut r, &job);
            let raw = torn(&mut r, raw);
            compared_raw(&mut r, &raw, &job)
        }
        _ => compared(&mut r, &job),
    };
    answer.map_err(|fault| format!("{kind}, seed {seed}: {fault}"))
}
