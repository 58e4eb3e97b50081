//! Plans many jobs by the proved library and by the oracle, and compares all that they leave: `cargo run --release --bin
//! scale -- [--jobs N] [--seed S] [--threads T]`. A difference is printed with the job's text. The status is 0 only if
//! there is none.
use compare::drawn::{KINDS, Size, drawn, kind};
use compare::extreme::cases;
use compare::planned::Same;
use oracle::generate::Rng;
use std::process::ExitCode;
use std::sync::Mutex;
use std::sync::atomic::{AtomicUsize, Ordering};
use std::time::Instant;

const USAGE: &str = "scale [--jobs N] [--seed S] [--threads T]";

/// Most jobs are small; one in six may be larger.
const SMALL: Size = Size { engagement: 35.0, cells: 22_000 };
const LARGER: Size = Size { engagement: 30.0, cells: 45_000 };

struct Asked {
    jobs: usize,
    seed: u64,
    threads: usize,
}

/// How often each kind was answered by each number, 0 for accepted, where the two fills agree and where they disagree; how
/// often the order of equally near pieces changes the answer; and what differed.
struct Tally {
    answers: [[[usize; 19]; KINDS]; 2],
    ordered: [usize; KINDS],
    differences: usize,
}

impl Tally {
    fn add(&mut self, k: usize, answer: Result<Same, String>) {
        match answer {
            Ok(same) => {
                self.answers[!same.fills_agree as usize][k][same.number as usize] += 1;
                self.ordered[k] += !same.orders_agree as usize;
            }
            Err(fault) => {
                self.differences += 1;
                println!("difference {}: {fault}", self.differences);
            }
        }
    }

    fn print(&self) {
        println!(
            "{:12} {:>6} {:>9} {:>8} {:>6} {:>6} {:>6} {:>15} {:>15}",
            "kind", "jobs", "accepted", "1 to 15", "16", "17", "18", "fills disagree", "order changes"
        );
        let [agree, disagree] = &self.answers;
        for k in 0..KINDS {
            let by: [usize; 19] = std::array::from_fn(|n| agree[k][n] + disagree[k][n]);
            let early: usize = by[1..16].iter().sum();
            let [all, other]: [usize; 2] = [by, disagree[k]].map(|by| by.iter().sum());
            let name = kind(k);
            println!(
                "{name:12} {all:6} {:9} {early:8} {:6} {:6} {:6} {other:15} {:15}",
                by[0], by[16], by[17], by[18], self.ordered[k]
            );
        }
        let sum =
            |side: &[[usize; 19]; KINDS], number: usize| side.iter().map(|by| by[number]).sum::<usize>();
        let total = |number: usize| sum(agree, number) + sum(disagree, number);
        let numbers: Vec<String> = (1..19).map(|n| format!("{n}: {}", total(n))).collect();
        println!("accepted {}, refused by {}", total(0), numbers.join(", "));
        for (what, side) in [("agree, as printed", agree), ("disagree, as changed", disagree)] {
            let jobs: usize = side.iter().flatten().sum();
            println!("the fills {what}: {jobs} jobs, {} accepted", sum(side, 0));
        }
        println!("the order changes the answer of {} jobs", self.ordered.iter().sum::<usize>());
    }
}

fn asked(words: &[String]) -> Option<Asked> {
    let mut asked = Asked { jobs: 7_000, seed: 1, threads: 1 };
    for pair in words.chunks(2) {
        let value = pair.get(1)?.parse().ok()?;
        match pair[0].as_str() {
            "--jobs" => asked.jobs = value,
            "--seed" => asked.seed = value as u64,
            "--threads" => asked.threads = value,
            _ => return None,
        }
    }
    Some(asked)
}

/// Every kind in turn. What a job is depends on the seed and its number alone.
fn plan_all(asked: &Asked) -> Tally {
    let none = Tally { answers: [[[0; 19]; KINDS]; 2], ordered: [0; KINDS], differences: 0 };
    let (next, tally) = (AtomicUsize::new(0), Mutex::new(none));
    let work = || {
        loop {
            let job = next.fetch_add(1, Ordering::Relaxed);
            if job >= asked.jobs {
                return;
            }
            let bits = Rng(asked.seed.wrapping_mul(1 << 32).wrapping_add(job as u64)).bits();
            let size = if bits.is_multiple_of(6) { LARGER } else { SMALL };
            let answer = drawn(bits, kind(job % KINDS), size);
            tally.lock().unwrap().add(job % KINDS, answer);
        }
    };
    std::thread::scope(|s| {
        for _ in 0..asked.threads.max(1) {
            s.spawn(work);
        }
    });
    tally.into_inner().unwrap()
}

/// Document 01's limits: how many were tried, and how many answers differ.
fn limits() -> (usize, usize) {
    let (mut r, cases) = (Rng(1), cases());
    let faults: Vec<String> = cases.iter().filter_map(|case| case.check(&mut r).err()).collect();
    faults.iter().for_each(|fault| println!("difference: {fault}"));
    (cases.len(), faults.len())
}

fn main() -> ExitCode {
    let words: Vec<String> = std::env::args().skip(1).collect();
    let Some(asked) = asked(&words) else {
        eprintln!("{USAGE}");
        return ExitCode::from(2);
    };
    let start = Instant::now();
    let (tried, wrong) = limits();
    println!("limits of document 01: {tried} jobs");
    let tally = plan_all(&asked);
    tally.print();
    let (seconds, differences) = (start.elapsed().as_secs(), wrong + tally.differences);
    println!("{} jobs, seed {}, {seconds} s, differences: {differences}", asked.jobs, asked.seed);
    if differences == 0 { ExitCode::SUCCESS } else { ExitCode::FAILURE }
}
