//! A job run: the answer, and its text.
use crate::entry;
use crate::error::CamError;
use crate::hooks::{Happened, Hooks, Times};
use crate::job::{Job, hex};
use crate::planner::{AdaptiveReport, Chunk, adaptive_clear};
use std::fmt::Write;

#[derive(Clone, Debug)]
pub struct Plan {
    pub report: AdaptiveReport,
    /// Kind, first triple, count.
    pub rows: Vec<[u32; 3]>,
    pub triples: Vec<[f64; 3]>,
    pub nx: usize,
    pub ny: usize,
    /// The stock map handed back, by cell number.
    pub map: Vec<bool>,
}

#[derive(Clone, Debug)]
pub struct Outcome {
    /// The plan, or the number of the question answered no.
    pub answer: Result<Plan, u32>,
    pub events: Vec<Happened>,
    /// Choices of a piece at which the two orders part.
    pub parted: usize,
    pub times: Times,
    /// On-CPU nanoseconds of the whole `adaptive_clear`.
    pub cpu_ns: u64,
}

impl Outcome {
    /// The answer no to a question before planning.
    pub fn refused(number: u32) -> Outcome {
        Outcome { answer: Err(number), events: Vec::new(), parted: 0, times: Times::default(), cpu_ns: 0 }
    }
}

/// On-CPU nanoseconds of this thread so far; 0 where the system does not tell.
pub fn cpu_ns() -> u64 {
    std::fs::read_to_string("/proc/thread-self/schedstat")
        .ok()
        .and_then(|s| s.split_whitespace().next().and_then(|w| w.parse().ok()))
        .unwrap_or(0)
}

/// Runs a job; `record` keeps its events.
pub fn run(job: &Job, record: bool) -> Outcome {
    if let Some(number) = entry::refused(job) {
        return Outcome::refused(number);
    }
    let mut hooks = Hooks::new(job.lent_triples, job.lent_rows, record);
    let (region, stock) = job.regions();
    let start = cpu_ns();
    let result = adaptive_clear(&region, stock.as_deref(), &job.params, &mut hooks);
    let cpu_ns = cpu_ns() - start;
    let answer = match (result, hooks.refused) {
        (_, Some(n)) => Err(n),
        (Err(CamError::Unreachable(_)), None) => Err(18),
        (Err(e), None) => panic!("questions 1 to 15 leave no other error: {e:?}"),
        (Ok(result), None) => {
            let (rows, triples) = list(&result.chunks);
            let (nx, ny) = (result.map.nx, result.map.ny);
            Ok(Plan { report: result.report, rows, triples, nx, ny, map: result.map.data })
        }
    };
    Outcome { answer, events: hooks.events, parted: hooks.parted, times: hooks.times, cpu_ns }
}

/// Rows and triples of a chunk list (document 01, "The chunk list").
pub fn list(chunks: &[Chunk]) -> (Vec<[u32; 3]>, Vec<[f64; 3]>) {
    let (mut rows, mut triples) = (Vec::new(), Vec::new());
    for chunk in chunks {
        let first = triples.len();
        let kind = match chunk {
            Chunk::Helix { center, radius } => {
                triples.push([center.x, center.y, *radius]);
                1
            }
            Chunk::Plunge { at } => {
                triples.push([at.x, at.y, 0.0]);
                2
            }
            Chunk::Link { to } => {
                triples.push([to.x, to.y, 0.0]);
                3
            }
            Chunk::Cut { pts } => {
                triples.extend(pts.iter().map(|(q, e)| [q.x, q.y, *e]));
                4
            }
        };
        rows.push([kind, first as u32, (triples.len() - first) as u32]);
    }
    (rows, triples)
}

/// FNV-1a, 64 bits, of a map as bytes 0 and 1.
pub fn fingerprint(map: &[bool]) -> u64 {
    fnv(map.iter().map(|&b| b as u8))
}

pub fn fnv(bytes: impl Iterator<Item = u8>) -> u64 {
    bytes.fold(0xcbf2_9ce4_8422_2325, |h, b| (h ^ b as u64).wrapping_mul(0x0000_0100_0000_01b3))
}

/// The answer in a text of `print`, and the text's fingerprint.
pub fn fingerprint_line(text: &str) -> String {
    let answer = text.lines().next().unwrap_or("").trim_start_matches("answer ");
    format!("{answer} {:016x}", fnv(text.bytes()))
}

/// The answer as text; without rows and triples when `brief`.
pub fn print(outcome: &Outcome, brief: bool) -> String {
    let plan = match &outcome.answer {
        Err(n) => return format!("answer {n}\n"),
        Ok(plan) => plan,
    };
    let r = &plan.report;
    let mut s = String::from("answer accepted\n");
    for (name, v) in [
        ("layers", r.layers),
        ("passes", r.passes),
        ("helix_entries", r.helix_entries),
        ("retracts", r.retracts),
        ("links", r.links),
    ] {
        let _ = writeln!(s, "{name} {v}");
    }
    for (name, v) in [
        ("planned_max_engagement_deg", r.planned_max_engagement_deg),
        ("removed_area", r.removed_area),
        ("remaining_reachable_area", r.remaining_reachable_area),
        ("unreachable_area", r.unreachable_area),
    ] {
        let _ = writeln!(s, "{name} {}", hex(v));
    }
    for (name, v) in [
        ("starting_cells", r.starting_cells),
        ("standing_cells", r.standing_cells),
        ("helix_given_up", r.helix_given_up),
        ("spent_budget", r.spent_budget as usize),
        ("left_reachable", r.left_reachable as usize),
    ] {
        let _ = writeln!(s, "{name} {v}");
    }
    let _ = writeln!(s, "rows {}", plan.rows.len());
    for [kind, first, count] in plan.rows.iter().filter(|_| !brief) {
        let _ = writeln!(s, "row {kind} {first} {count}");
    }
    let _ = writeln!(s, "triples {}", plan.triples.len());
    for [kind, first, count] in plan.rows.iter().filter(|_| !brief) {
        for [x, y, value] in &plan.triples[*first as usize..(*first + *count) as usize] {
            let _ = writeln!(s, "{kind}\t{}\t{}\t{}", hex(*x), hex(*y), hex(*value));
        }
    }
    let _ = writeln!(s, "sides {} {}", plan.nx, plan.ny);
    let _ = writeln!(s, "map {} {:016x}", plan.map.len(), fingerprint(&plan.map));
    s
}
