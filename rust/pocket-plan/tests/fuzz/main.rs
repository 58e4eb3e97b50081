//! Job files, damaged in every way: none makes the command crash or hang, and a message about one says where it is wrong.
//! `FUZZ=N cargo test --release --test fuzz` tries N files; what fails is kept for another look.
mod command;
mod damage;

use command::Command;
use damage::damaged;
use oracle::generate::Rng;
use oracle::stored::jobs_folder;
use pocket::RawJob;
use pocket_plan::file::parse_bytes;
use pocket_plan::mistake::Mistake;
use pocket_plan::why::why;
use std::path::PathBuf;

/// How many files are tried where nobody says.
const FEW: u64 = 4_000;

/// One in so many is given to the command itself.
const RARELY: u64 = 20;

/// Planning is not what is tried: it is kept short by a raster of so many cells, or by so few triples.
const MOST_CELLS: usize = 12_000;
const FEW_TRIPLES: usize = 40;

fn tries() -> u64 {
    std::env::var("FUZZ").map_or(FEW, |n| n.parse().expect("FUZZ is a number"))
}

/// The stored jobs and the sample jobs. Those that are not small are lent few triples.
fn samples() -> Vec<String> {
    let folders = [jobs_folder(), PathBuf::from(env!("CARGO_MANIFEST_DIR")).join("../../jobs")];
    let mut files: Vec<PathBuf> =
        folders.iter().flat_map(|f| f.read_dir().unwrap()).map(|entry| entry.unwrap().path()).collect();
    files.retain(|file| file.extension().is_some_and(|e| e == "job"));
    files.sort();
    let text = |file: &PathBuf| {
        let all = std::fs::read_to_string(file).unwrap();
        if parse_bytes(all.as_bytes()).is_ok_and(|job| job.cells() <= MOST_CELLS) {
            return all;
        }
        let kept: Vec<&str> = all.lines().filter(|line| !line.starts_with("lent_triples")).collect();
        format!("lent_triples {FEW_TRIPLES}\n{}\n", kept.join("\n"))
    };
    files.iter().map(text).collect()
}

/// The message has a place in the file, and names it first.
fn check_message(bytes: &[u8], mistake: &Mistake) -> Result<(), String> {
    let text = String::from_utf8_lossy(bytes);
    let text = text.strip_prefix('\u{feff}').unwrap_or(&text);
    let lines: Vec<&str> = text.lines().collect();
    let Mistake { line, column, expected, found, .. } = mistake;
    let length = line.checked_sub(1).and_then(|k| lines.get(k)).map(|l| l.chars().count());
    let placed = match length {
        Some(length) => (1..=length + 1).contains(column),
        None => *line == lines.len() + 1 && *column == 1,
    };
    let message = mistake.under("JOB").to_string();
    let named = message.starts_with(&format!("JOB:{line}:{column}: expected "));
    let told = !expected.is_empty() && !found.is_empty() && message.lines().count() == 3;
    if placed && named && told { Ok(()) } else { Err(format!("a message without its place:\n{message}")) }
}

/// Whether its plan takes a second or two.
fn quick(job: &RawJob) -> bool {
    job.cells() <= MOST_CELLS || job.lent.triples.is_some_and(|n| n <= FEW_TRIPLES)
}

/// The job is answered, and a refusal explained.
fn check_job(job: &RawJob) -> Result<(), String> {
    if job.cells() > MOST_CELLS {
        return Ok(());
    }
    let mut short = job.clone();
    short.lent.triples = Some(job.lent.triples.map_or(FEW_TRIPLES, |n| n.min(FEW_TRIPLES)));
    match short.plan() {
        Err(refusal) if !(1..=18).contains(&refusal.number) => Err(format!("refused by {}", refusal.number)),
        Err(refusal) if why(&short, refusal).is_empty() => Err("a refusal without words".into()),
        _ => Ok(()),
    }
}

/// What the file comes to in this process: its job, if it is one.
fn check_file(bytes: &[u8]) -> Result<Option<RawJob>, String> {
    let checked = std::panic::catch_unwind(|| match parse_bytes(bytes) {
        Ok(job) => check_job(&job).map(|()| Some(job)),
        Err(mistake) => check_message(bytes, &mistake).map(|()| None),
    });
    checked.unwrap_or_else(|_| Err("a panic".into()))
}

#[test]
fn damaged_files() {
    let (samples, command, mut r) = (samples(), Command::new(), Rng(71));
    let (mut jobs, mut runs, mut ends) = (0, 0, [0usize; 3]);
    for number in 0..tries() {
        let bytes = damaged(&mut r, &samples);
        let kept = || {
            let path = PathBuf::from(env!("CARGO_TARGET_TMPDIR")).join(format!("fuzz-{number}.job"));
            std::fs::write(&path, &bytes).unwrap();
            path.display().to_string()
        };
        let job = check_file(&bytes).unwrap_or_else(|fault| panic!("{}: {fault}", kept()));
        jobs += u64::from(job.is_some());
        if number % RARELY == 0 && job.as_ref().is_none_or(quick) {
            let end = command.run(&mut r, &bytes).unwrap_or_else(|fault| panic!("{}: {fault}", kept()));
            assert_eq!(job.is_some(), end != 2, "{}: exit status {end}", kept());
            runs += 1;
            ends[end] += 1;
        }
    }
    println!("{} files, {jobs} of them jobs; {runs} runs: {ends:?} by exit status", tries());
    assert!(jobs * 20 > tries() && jobs * 20 < tries() * 19, "{jobs} jobs");
    assert!(ends.iter().all(|&n| n > 0), "{ends:?}");
}

/// A file that is longer than any job file, and one without an end of line.
#[test]
fn long_files() {
    let (command, mut r) = (Command::new(), Rng(72));
    for bytes in [
        vec![b'\n'; 17 << 20],
        vec![b'7'; 15 << 20],
        b"pocket ".iter().copied().chain(b"3 ".repeat(1 << 20)).collect(),
        b"verts 99999999999\n".iter().copied().chain(b"1 2\n".repeat(1 << 20)).collect(),
    ] {
        assert_eq!(command.run(&mut r, &bytes).unwrap_or_else(|fault| panic!("{fault}")), 2);
    }
}
