//! Times whole plans of the proved library beside the Rust, and prints the tables of docs/PERFORMANCE.md: `cargo run
//! --release --bin bench_plans -- [--threads T] [--only WORD]`, the word being part of a job's name. All times are of the
//! thread's CPU.
use compare::planner::{Answer, Slices, adaptive_clear, numbers, report};
use compare::raw::Raw;
use compare::sampled::{FRAMES, Met, sampled};
use compare::timing::cpu;
use oracle::generate::large;
use oracle::hooks::Times;
use oracle::job::Job;
use oracle::planner::AdaptiveParams;
use oracle::run::{Plan, run};
use oracle::switches::{self, Switches};
use oracle::vec2::v2;
use std::process::ExitCode;
use std::sync::Mutex;
use std::time::Duration;

/// A job is planned by each side in turn, at most so often, and not again after so many seconds.
const ROUNDS: usize = 3;
const ENOUGH: f64 = 8.0;

/// Phases of a plan.
const PHASES: [&str; 6] = ["distance", "field", "curves", "passes", "ways", "rest"];

/// Seconds of a side, in all and by phase.
#[derive(Clone, Copy, Default)]
struct Spent {
    all: f64,
    phases: [f64; PHASES.len()],
}

impl Spent {
    /// Seconds in all, by the shares of the phases.
    fn new(all: f64, shares: [f64; PHASES.len()]) -> Spent {
        Spent { all, phases: shares.map(|share| share * all) }
    }
}

/// As printed, with a rim table, proved.
type Sides = [Spent; 3];

struct Timed {
    name: String,
    cells: usize,
    sides: Sides,
}

/// The phases' shares of a plan of the Rust. `rest` is its setup, smoothing, the choice of a piece, entries and report.
fn rust_shares(t: &Times, all: Duration) -> [f64; PHASES.len()] {
    let passes = t.blend + t.simulate;
    let rest = all.saturating_sub(t.distance + t.field + t.contours + passes + t.link);
    [t.distance, t.field, t.contours, passes, t.link, rest].map(|d| d.as_secs_f64() / all.as_secs_f64())
}

fn rust(job: &Job, plain_rim: bool) -> (Plan, Spent) {
    switches::set(Switches { plain_rim, buckets: true, ..Switches::default() });
    let (start, wall) = (cpu(), std::time::Instant::now());
    let outcome = run(job, false);
    let (all, wall) = ((cpu() - start) / 1e9, wall.elapsed());
    (
        outcome.answer.expect("the larger jobs are accepted"),
        Spent::new(all, rust_shares(&outcome.times, wall)),
    )
}

/// By what the planner, and a piece that is cut, have called. The field is compiled into the planner.
fn proved_shares(met: &Met) -> [f64; PHASES.len()] {
    let mut shares = [0.0; PHASES.len()];
    for (at, [called, below]) in met {
        let phase = match (at.as_str(), called.as_str(), below.as_str()) {
            (
                _,
                "rounds::round::cut_next",
                "distance::transform"
                | "dilation::window::shade"
                | "distance::limits::Limit::of"
                | "links::path::clear",
            ) => 4,
            (_, "rounds::round::cut_next", _) => 3,
            // Below a dilation stand words of earlier calls, which are taken for the one that was made.
            ("dilation::window::shade", _, _) | (_, "distance::transform", _) => 0,
            (_, "", _) if at == FRAMES[0] => 1,
            (_, "tracing::curves::trace", _) => 2,
            _ => 5,
        };
        shares[phase] += 1.0 / met.len() as f64;
    }
    shares
}

/// What the library is lent, written to once.
struct Lent {
    raw: Raw,
    vertices: Vec<u64>,
    bytes: Vec<u8>,
    words: Vec<u32>,
    singles: Vec<u32>,
    doubles: Vec<u64>,
    rows: Vec<u32>,
    triples: Vec<u64>,
}

impl Lent {
    fn new(job: &Job) -> Lent {
        let raw = Raw::new(job);
        let [bytes, words, singles, doubles, rows, triples] = raw.lent;
        Lent {
            vertices: raw.vertices.iter().map(|x| x.to_bits()).collect(),
            raw,
            bytes: vec![1; bytes],
            words: vec![1; words],
            singles: vec![1; singles],
            doubles: vec![1; doubles],
            rows: vec![1; rows],
            triples: vec![1; triples],
        }
    }

    fn plan(&mut self) -> Answer {
        let lent = Slices {
            vertices: &mut self.vertices,
            lengths: &mut self.raw.lengths,
            regions: &mut self.raw.regions,
            bytes: &mut self.bytes,
            words: &mut self.words,
            singles: &mut self.singles,
            doubles: &mut self.doubles,
            rows: &mut self.rows,
            triples: &mut self.triples,
        };
        adaptive_clear(&self.raw.params, self.raw.whole, lent)
    }

    /// The plan is the Rust's.
    fn holds(&self, answer: &Answer, plan: &Plan) -> bool {
        let triples: Vec<u64> = plan.triples.iter().flatten().map(|x| x.to_bits()).collect();
        answer.refused == 0
            && numbers(&answer.report) == numbers(&report(&plan.report))
            && self.rows.starts_with(&plan.rows.concat())
            && self.triples.starts_with(&triples)
            && self.bytes.iter().zip(&plan.map).all(|(byte, stock)| *byte == *stock as u8)
    }
}

fn proved(lent: &mut Lent) -> (Answer, Spent) {
    let (mut answer, mut all) = (None, 0.0);
    let met = sampled(|| {
        let start = cpu();
        answer = Some(lent.plan());
        all = (cpu() - start) / 1e9;
    });
    (answer.unwrap(), Spent::new(all, proved_shares(&met)))
}

/// The least times of each side, which all have the same plan.
fn timed(name: &str, job: &Job) -> Timed {
    let job = Job { lent_rows: 20_000, lent_triples: 1_000_000, ..job.clone() };
    let mut lent = Lent::new(&job);
    let mut best: Option<Sides> = None;
    let (mut cells, mut spent) = (0, 0.0);
    for _ in 0..ROUNDS {
        let (printed, first) = rust(&job, true);
        let (plan, second) = rust(&job, false);
        let (answer, third) = proved(&mut lent);
        assert!(printed.rows == plan.rows && lent.holds(&answer, &plan), "{name}: the plans differ");
        cells = plan.nx * plan.ny;
        let sides = [first, second, third];
        spent += sides.iter().map(|s| s.all).sum::<f64>();
        let least = |a: Spent, b: Spent| if b.all < a.all { b } else { a };
        best = Some(best.map_or(sides, |b| std::array::from_fn(|k| least(b[k], sides[k]))));
        if spent > ENOUGH {
            break;
        }
    }
    Timed { name: name.into(), cells, sides: best.unwrap() }
}

/// Times jobs on so many threads, those that take longest first; in their own order.
fn all(jobs: Vec<(String, Job)>, threads: usize) -> Vec<Timed> {
    let weight = |(_, job): &(String, Job)| -> usize { Raw::new(job).lent[0] };
    let mut order: Vec<usize> = (0..jobs.len()).collect();
    order.sort_by_key(|&k| weight(&jobs[k]));
    let (left, done) = (Mutex::new(order), Mutex::new(Vec::new()));
    let work = || {
        while let Some(k) = { left.lock().unwrap().pop() } {
            let one = timed(&jobs[k].0, &jobs[k].1);
            eprintln!("{} {:.2?}", one.name, one.sides.map(|s| s.all));
            done.lock().unwrap().push((k, one));
        }
    };
    std::thread::scope(|s| {
        for _ in 0..threads {
            s.spawn(work);
        }
    });
    let mut done = done.into_inner().unwrap();
    done.sort_by_key(|(k, _)| *k);
    done.into_iter().map(|(_, one)| one).collect()
}

fn heads(titles: &[&str]) {
    println!("| {} |", titles.join(" | "));
    println!("|---|{}", "---:|".repeat(titles.len() - 1));
}

fn print_times(jobs: &[Timed]) {
    heads(&[
        "job",
        "cells",
        "printed, s",
        "rim table, s",
        "proved, s",
        "printed / proved",
        "rim table / proved",
    ]);
    for Timed { name, cells, sides } in jobs {
        let [printed, table, proved] = sides.map(|s| s.all);
        let (first, second) = (printed / proved, table / proved);
        println!("| {name} | {cells} | {printed:.2} | {table:.2} | {proved:.2} | {first:.2} | {second:.2} |");
    }
}

/// Seconds of each phase, and its share of the side's time.
fn print_phases(jobs: &[Timed]) {
    heads(&[&["job, s (%)", "side"][..], &PHASES].concat());
    for Timed { name, sides, .. } in jobs {
        for (side, spent) in ["printed", "rim table", "proved"].iter().zip(sides) {
            let cell = |phase: f64| format!("{phase:.2} ({:.0})", 100.0 * phase / spent.all);
            println!("| {name} | {side} | {} |", spent.phases.map(cell).join(" | "));
        }
    }
}

/// The sum of all jobs.
fn sum(jobs: &[Timed]) -> Timed {
    let add = |a: Spent, b: &Spent| Spent {
        all: a.all + b.all,
        phases: std::array::from_fn(|k| a.phases[k] + b.phases[k]),
    };
    let side = |k: usize| jobs.iter().map(|job| &job.sides[k]).fold(Spent::default(), add);
    let cells = jobs.iter().map(|job| job.cells).sum();
    Timed { name: "all".into(), cells, sides: std::array::from_fn(side) }
}

/// A square pocket, tool 6, engagement 60.
fn square(side: f64, cell: f64) -> (String, Job) {
    let mut params = AdaptiveParams::new(6.0, 0.0, -6.0, 1000.0);
    params.max_engagement_deg = 60.0;
    params.resolution = Some(cell);
    let mut job = Job::new(params);
    job.pocket = vec![4];
    job.verts = vec![v2(0.0, 0.0), v2(side, 0.0), v2(side, side), v2(0.0, side)];
    (format!("{side} mm, cell {cell}"), job)
}

/// A square of stock of 12 mm in the middle of a square pocket: as much to cut, on a larger map.
fn middle(side: f64) -> (String, Job) {
    let (_, mut job) = square(side, 0.1);
    let (low, high) = (0.5 * side - 6.0, 0.5 * side + 6.0);
    job.stock = Some(vec![vec![4]]);
    job.verts.extend([v2(low, low), v2(high, low), v2(high, high), v2(low, high)]);
    (format!("12 mm of stock in {side} mm"), job)
}

/// A round pocket of 48 mm, tool 6, engagement 90, as a polygon of so many vertices.
fn round(vertices: usize) -> (String, Job) {
    let mut params = AdaptiveParams::new(6.0, 0.0, -6.0, 1000.0);
    params.max_engagement_deg = 90.0;
    let mut job = Job::new(params);
    job.pocket = vec![vertices];
    let at = |k: usize| std::f64::consts::TAU * k as f64 / vertices as f64;
    job.verts = (0..vertices).map(|k| v2(24.0 * at(k).cos(), 24.0 * at(k).sin())).collect();
    (format!("{vertices} vertices"), job)
}

/// The machine, as it tells itself.
fn machine() -> String {
    let read = |file: &str| std::fs::read_to_string(file).unwrap_or_default();
    let cpu = read("/proc/cpuinfo");
    let model = cpu.lines().find_map(|l| l.strip_prefix("model name")).unwrap_or(": unknown");
    let cores = std::thread::available_parallelism().map_or(1, usize::from);
    let load = read("/proc/loadavg").split(' ').next().unwrap_or("?").to_string();
    format!("{}, {cores} cores, load {load} at the end", model.trim_start_matches([' ', '\t', ':']))
}

struct Asked {
    threads: usize,
    only: String,
}

fn asked(words: &[String]) -> Option<Asked> {
    let mut asked = Asked { threads: 2, only: String::new() };
    for pair in words.chunks(2) {
        let value = pair.get(1)?;
        match pair[0].as_str() {
            "--threads" => asked.threads = value.parse().ok()?,
            "--only" => asked.only = value.clone(),
            _ => return None,
        }
    }
    Some(asked)
}

fn main() -> ExitCode {
    let words: Vec<String> = std::env::args().skip(1).collect();
    let Some(Asked { threads, only }) = asked(&words) else {
        eprintln!("bench_plans [--threads T] [--only WORD]");
        return ExitCode::from(2);
    };
    let time = |jobs: Vec<(String, Job)>| {
        all(jobs.into_iter().filter(|(name, _)| name.contains(&only)).collect(), threads)
    };
    let mut jobs = time(large().into_iter().map(|(name, job)| (name.to_string(), job)).collect());
    let finer = time([0.1, 0.07, 0.05, 0.035].map(|cell| square(18.0, cell)).to_vec());
    let wider = time([9.0, 18.0, 27.0, 36.0].map(|side| square(side, 0.1)).to_vec());
    let emptier = time([18.0, 36.0, 54.0, 90.0].map(middle).to_vec());
    let rounder = time([64, 256, 1024, 4096].map(round).to_vec());
    jobs.push(sum(&jobs));
    println!("{}; {threads} threads.\n\n### The larger jobs\n", machine());
    print_times(&jobs);
    println!("\n### By phase\n");
    print_phases(&jobs);
    println!("\n### Finer cells, the same pocket\n");
    print_times(&finer);
    println!("\n### Larger pockets, the same cell\n");
    print_times(&wider);
    println!("\n### The same stock, larger maps\n");
    print_times(&emptier);
    println!("\n### The same pocket, more vertices\n");
    print_times(&rounder);
    ExitCode::SUCCESS
}
