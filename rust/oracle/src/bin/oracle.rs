//! oracle [OPTION...] JOB...      plans jobs and prints the answers
//! oracle --fingerprint JOB...    one line a job: name, expected answer, FNV-1a of the whole answer's text
//! oracle --derived FILE          prints a derived source (adaptive.rs, raster.rs, geom.rs, error.rs)
use oracle::hooks::Event;
use oracle::job::{self, hex};
use oracle::run::{self, Outcome};
use oracle::switches::{self, Switches};
use oracle::{DERIVED, expected, replay};
use std::path::Path;
use std::process::ExitCode;

const USAGE: &str = "oracle [--brief] [--trace] [--replay] [--time] [--plain-rim] [--buckets] [--fill-contains] [--longer-first] [--higher-first] [--first-wins] [--fewer-first] [--later-first] JOB...
  --brief         no rows or triples
  --trace         the events, before the answer
  --replay        the faults found by replay
  --time          time of the whole in CPU nanoseconds, and of the phases
  --plain-rim     sine and cosine at each sample, as printed (the same bits, slower)
  --buckets       walls by the printed buckets (else every segment, as document 01 asks)
  --fill-contains regions filled by `contains`, the replay's too (else even-odd, as printed)
  --longer-first  of equally near pieces the one with more points first (else the earlier, as printed)
  --higher-first  wrong on purpose: the higher node number on equal estimates
  --first-wins    wrong on purpose: the first insert wins in the contour's edge map
  --fewer-first   wrong on purpose, with --longer-first: fewer points first
  --later-first   wrong on purpose, with --longer-first: on as many points the later
oracle --fingerprint JOB...
  one line a job: name, answer, FNV-1a (64 bits) of the whole text; where the two fills disagree on a cell, by `contains`,
  and where the two orders part, by --longer-first
oracle --derived FILE
  a derived source: adaptive.rs, raster.rs, geom.rs, error.rs";

fn main() -> ExitCode {
    let (mut brief, mut trace, mut replayed, mut time, mut short) = (false, false, false, false, false);
    let mut how = Switches::default();
    let mut files = Vec::new();
    let mut words = std::env::args().skip(1);
    while let Some(word) = words.next() {
        match word.as_str() {
            "--brief" => brief = true,
            "--trace" => trace = true,
            "--replay" => replayed = true,
            "--time" => time = true,
            "--fingerprint" => short = true,
            "--plain-rim" => how.plain_rim = true,
            "--buckets" => how.buckets = true,
            "--fill-contains" => how.fill_contains = true,
            "--longer-first" => how.longer_first = true,
            "--higher-first" => how.higher_first = true,
            "--first-wins" => how.first_wins = true,
            "--fewer-first" => how.fewer_first = true,
            "--later-first" => how.later_first = true,
            "--derived" => return derived(&words.next().unwrap_or_default()),
            _ if word.starts_with('-') => return fail(USAGE),
            _ => files.push(word),
        }
    }
    if files.is_empty() {
        return fail(USAGE);
    }
    switches::set(how);
    let mut faults = 0;
    for file in &files {
        let job = match std::fs::read_to_string(file).map_err(|e| e.to_string()).and_then(|t| job::parse(&t))
        {
            Ok(job) => job,
            Err(e) => return fail(&format!("{file}: {e}")),
        };
        if short {
            let text = run::print(&expected::expected(&job, false).outcome, false);
            let name = Path::new(file).file_stem().unwrap_or_default().display();
            println!("{name} {}", run::fingerprint_line(&text));
            continue;
        }
        if files.len() > 1 {
            println!("job {file}");
        }
        let outcome = run::run(&job, trace || replayed);
        if trace {
            print_events(&outcome);
        }
        print!("{}", run::print(&outcome, brief));
        if time {
            println!("time cpu_ns {} {:?}", outcome.cpu_ns, outcome.times);
        }
        if replayed {
            let found = replay::faults(&job, &outcome);
            println!("replay faults {}", found.len());
            found.iter().for_each(|f| println!("fault {f}"));
            faults += found.len();
        }
    }
    if faults == 0 { ExitCode::SUCCESS } else { ExitCode::FAILURE }
}

fn fail(message: &str) -> ExitCode {
    eprintln!("{message}");
    ExitCode::from(2)
}

fn derived(name: &str) -> ExitCode {
    match DERIVED.iter().find(|(n, _)| *n == name) {
        Some((_, text)) => {
            print!("{text}");
            ExitCode::SUCCESS
        }
        None => fail(USAGE),
    }
}

fn print_events(outcome: &Outcome) {
    for happened in &outcome.events {
        match &happened.event {
            Event::Tried { points, removed } => {
                let (p, n) = (points[0].0, points.len());
                println!("event tried points={n} removed={removed} first={} {}", hex(p.x), hex(p.y))
            }
            Event::Withdrawn => println!("event withdrawn"),
            Event::Kept => println!("event kept"),
            Event::Link { to } => println!("event link {} {}", hex(to.x), hex(to.y)),
            Event::Plunge { at } => println!("event plunge {} {}", hex(at.x), hex(at.y)),
            Event::Helix { center: c, radius } => {
                println!("event helix {} {} {}", hex(c.x), hex(c.y), hex(*radius))
            }
            Event::RefusedLink { to } => println!("event refused-link {} {}", hex(to.x), hex(to.y)),
            Event::HelixGivenUp { center: c, cells } => {
                println!("event helix-given-up {} {} cells={cells}", hex(c.x), hex(c.y))
            }
        }
    }
}
