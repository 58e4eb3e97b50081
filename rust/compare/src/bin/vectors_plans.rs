//! Writes the oracle's expected answers to a few stored jobs, as the program `vectors_plans` writes its own:
//! crates/vectors_plans/README.md has the lines.
use compare::bits::Bits;
use compare::planner::{numbers, report};
use compare::prints::fingerprint;
use oracle::expected::expected;
use oracle::job::Job;
use oracle::run::Plan;
use oracle::stored::stored;
use oracle::vec2::v2;

/// What the program lends, in numbers: bytes, u32, f64, and what there is for rows and triples.
const BYTES: usize = 72_200;
const NUMBERS: usize = 296_992;
const ROWS: usize = 300;
const TRIPLES: usize = 3_006;

/// A slice of `long` places, `lent` of them: the numbers, zeros, and sevens where nothing was lent.
fn slice(numbers: Vec<u64>, lent: usize, long: usize, seven: u64) -> u64 {
    let mut all = numbers;
    all.resize(lent, 0);
    all.resize(long, seven);
    fingerprint(all)
}

/// The lines of a job with so many numbers lent for rows and triples.
fn lines(mut job: Job, rows: usize, triples: usize) {
    (job.lent_rows, job.lent_triples) = (rows / 3, triples / 3);
    let plan = expected(&job, false).outcome.answer;
    let mut words = match &plan {
        Ok(plan) => [&[0][..], &numbers(&report(&plan.report))].concat(),
        Err(n) => vec![*n as u64],
    };
    let of = |f: fn(&Plan) -> Vec<u64>| plan.as_ref().map_or(Vec::new(), f);
    words.push(slice(of(|p| p.map.iter().map(|&stock| stock as u64).collect()), BYTES, BYTES, 7));
    words.push(slice(Vec::new(), NUMBERS, NUMBERS, 7));
    words.push(slice(Vec::new(), NUMBERS, NUMBERS, 7));
    words.push(slice(of(|p| p.rows.iter().flatten().map(|&n| n as u64).collect()), rows, ROWS, 7));
    words.push(slice(
        of(|p| p.triples.iter().flatten().map(|x| x.bits()).collect()),
        triples,
        TRIPLES,
        7f64.bits(),
    ));
    for word in words {
        println!("{word}");
    }
}

/// The stored job with stock over two thirds of it, and a tool that is lifted after each pass.
fn lifted() -> Job {
    let mut job = stored("doc-res-0.1");
    job.params.keep_tool_down = false;
    job.stock = Some(vec![vec![4]]);
    job.verts.extend([v2(3.0, 0.0), v2(9.0, 0.0), v2(9.0, 9.0), v2(3.0, 9.0)]);
    job
}

fn main() {
    for (rows, triples) in [(153, 3_003), (155, 3_005), (153, 3_002), (152, 3_003)] {
        lines(stored("doc-res-0.1"), rows, triples);
    }
    lines(lifted(), ROWS, TRIPLES);
}
