//! A whole job planned by the proved library and by the oracle: answer, report, rows, triples, final map, zeros everywhere
//! else, and what lies around the lent slices.
use crate::noisy::Noisy;
use crate::planner::{Answer, Report, Slices, adaptive_clear, numbers, report};
use crate::raw::Raw;
use oracle::entry;
use oracle::expected::{Expected, expected};
use oracle::generate::Rng;
use oracle::job::{self, Job};
use oracle::run::Plan;

/// What a job is lent, and its answer.
pub struct Planned {
    pub answer: Answer,
    vertices: Noisy<u64>,
    lengths: Noisy<u32>,
    regions: Noisy<u32>,
    bytes: Noisy<u8>,
    words: Noisy<u32>,
    singles: Noisy<u32>,
    doubles: Noisy<u64>,
    rows: Noisy<u32>,
    triples: Noisy<u64>,
}

impl Planned {
    /// The library's answer. Workspace and outputs are full of noise before.
    pub fn new(r: &mut Rng, raw: &Raw) -> Planned {
        let vertices: Vec<u64> = raw.vertices.iter().map(|x| x.to_bits()).collect();
        let [bytes, words, singles, doubles, rows, triples] = raw.lent;
        let mut planned = Planned {
            answer: Answer { refused: u32::MAX, report: Report::default() },
            vertices: Noisy::around(r, &vertices),
            lengths: Noisy::around(r, &raw.lengths),
            regions: Noisy::around(r, &raw.regions),
            bytes: Noisy::new(r, bytes),
            words: Noisy::new(r, words),
            singles: Noisy::new(r, singles),
            doubles: Noisy::new(r, doubles),
            rows: Noisy::new(r, rows),
            triples: Noisy::new(r, triples),
        };
        let lent = Slices {
            vertices: planned.vertices.lend(),
            lengths: planned.lengths.lend(),
            regions: planned.regions.lend(),
            bytes: planned.bytes.lend(),
            words: planned.words.lend(),
            singles: planned.singles.lend(),
            doubles: planned.doubles.lend(),
            rows: planned.rows.lend(),
            triples: planned.triples.lend(),
        };
        planned.answer = adaptive_clear(&raw.params, raw.whole, lent);
        planned
    }

    /// What is wrong, beside the plan or the number that is wanted.
    pub fn fault(&self, want: &Result<Plan, u32>) -> Option<String> {
        let number = want.as_ref().err().copied().unwrap_or(0);
        let found = self.answer.refused;
        if found != number {
            return Some(format!("answer {found}, not {number}"));
        }
        let wanted = want.as_ref().map_or(Report::default(), |plan| report(&plan.report));
        let sound = [
            ("the job has changed", self.unread()),
            ("something around a lent slice has changed", self.guarded()),
            ("the report differs", numbers(&self.answer.report) == numbers(&wanted)),
            ("a lent slice differs", self.left(want)),
        ];
        sound.into_iter().find(|(_, holds)| !holds).map(|(what, _)| what.into())
    }

    /// What each slice holds then: 1 to 15 change none; after 16 to 18 workspace and outputs are zero.
    fn left(&self, want: &Result<Plan, u32>) -> bool {
        match want {
            Err(1..=15) => self.untouched(),
            Err(_) => self.holds(&[], &[], &[]),
            Ok(plan) => {
                let map: Vec<u8> = plan.map.iter().map(|&stock| stock as u8).collect();
                let triples: Vec<u64> = plan.triples.iter().flatten().map(|x| x.to_bits()).collect();
                self.holds(&map, &plan.rows.concat(), &triples)
            }
        }
    }

    fn unread(&self) -> bool {
        self.vertices.untouched() && self.lengths.untouched() && self.regions.untouched()
    }

    fn untouched(&self) -> bool {
        let workspace = self.bytes.untouched() && self.words.untouched() && self.singles.untouched();
        workspace && self.doubles.untouched() && self.rows.untouched() && self.triples.untouched()
    }

    fn guarded(&self) -> bool {
        let workspace = self.bytes.guarded() && self.words.guarded() && self.singles.guarded();
        workspace && self.doubles.guarded() && self.rows.guarded() && self.triples.guarded()
    }

    /// Map, rows and triples in front; all else is zero.
    fn holds(&self, map: &[u8], rows: &[u32], triples: &[u64]) -> bool {
        let workspace = self.words.holds(&[]) && self.singles.holds(&[]) && self.doubles.holds(&[]);
        workspace && self.bytes.holds(map) && self.rows.holds(rows) && self.triples.holds(triples)
    }
}

/// Rows and triples that are lent where a job lends more; no plan that is compared needs them all.
const PLENTY: (usize, usize) = (4_000, 100_000);

/// The job, with no more than plenty of rows and triples.
pub fn trimmed(job: &Job) -> Job {
    let (rows, triples) = PLENTY;
    let (lent_rows, lent_triples) = (job.lent_rows.min(rows), job.lent_triples.min(triples));
    Job { lent_rows, lent_triples, ..job.clone() }
}

/// A difference, and the job's text.
fn shown(fault: String, job: &Job) -> String {
    format!("{fault}\n{}", job::write(job))
}

/// A job whose two plans are the same.
#[derive(Clone, Copy, Debug)]
pub struct Same {
    /// The number of the answer, 0 for accepted.
    pub number: u32,
    /// Whether the print's fill sets the same cells as the changed one; else the oracle's plan is by the changed fill.
    pub fills_agree: bool,
    /// Whether the print's order gives the same answer as the changed one; else the oracle's plan is in the changed order.
    pub orders_agree: bool,
}

/// Plans the job as it is lent: how it was answered, or the difference from what is expected.
fn beside(r: &mut Rng, raw: &Raw, want: &Expected) -> Result<Same, String> {
    let got = Planned::new(r, raw);
    match got.fault(&want.outcome.answer) {
        Some(fault) => Err(fault),
        None => Ok(Same {
            number: got.answer.refused,
            fills_agree: want.fills_agree,
            orders_agree: want.orders_agree,
        }),
    }
}

/// Plans the job on both sides: how it was answered, or the difference and the job's text.
pub fn compared(r: &mut Rng, job: &Job) -> Result<Same, String> {
    let job = trimmed(job);
    let raw = Raw::varied(r, &job);
    let same = beside(r, &raw, &expected(&job, false)).map_err(|fault| shown(fault, &job))?;
    let (rows, triples) = PLENTY;
    match same.number {
        16 if job.lent_triples == triples => Err(shown("more triples are needed than plenty".into(), &job)),
        17 if job.lent_rows == rows => Err(shown("more rows are needed than plenty".into(), &job)),
        _ => Ok(same),
    }
}

/// The same of a job as it is lent, which was made from `of`. Where its regions are no regions at all the answer is 13,
/// if no earlier question is answered no.
pub fn compared_raw(r: &mut Rng, raw: &Raw, of: &Job) -> Result<Same, String> {
    let want = match raw.job(of) {
        Some(job) => expected(&job, false),
        None => Expected::refused(entry::refused(of).map_or(13, |number| number.min(13))),
    };
    beside(r, raw, &want).map_err(|fault| format!("{fault}\n{raw:?}"))
}
