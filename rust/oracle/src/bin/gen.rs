//! gen SEED [KIND]             prints one job
//! gen --dir DIR FIRST COUNT   writes DIR/SEED-KIND.job for COUNT seeds
//! gen --large DIR             writes the twelve larger jobs
use oracle::{generate, job};
use std::path::Path;
use std::process::ExitCode;

const USAGE: &str = "gen SEED [KIND] | gen --dir DIR FIRST COUNT | gen --large DIR";

fn main() -> ExitCode {
    let words: Vec<String> = std::env::args().skip(1).collect();
    let words: Vec<&str> = words.iter().map(String::as_str).collect();
    match run(&words) {
        Ok(()) => ExitCode::SUCCESS,
        Err(e) => {
            eprintln!("{e}");
            ExitCode::from(2)
        }
    }
}

fn run(words: &[&str]) -> Result<(), String> {
    match words {
        ["--dir", dir, first, count] => {
            let first = number(first)?;
            for seed in first..first + number(count)? {
                let (job, kind) = generate::job(seed, None)?;
                store(dir, &format!("{seed:05}-{kind}"), &job)?;
            }
        }
        ["--large", dir] => {
            for (name, job) in generate::large() {
                store(dir, name, &job)?;
            }
        }
        [seed] => print!("{}", job::write(&generate::job(number(seed)?, None)?.0)),
        [seed, kind] => print!("{}", job::write(&generate::job(number(seed)?, Some(kind))?.0)),
        _ => return Err(USAGE.into()),
    }
    Ok(())
}

fn number(word: &str) -> Result<u64, String> {
    word.parse().map_err(|_| USAGE.into())
}

fn store(dir: &str, name: &str, job: &job::Job) -> Result<(), String> {
    let path = Path::new(dir).join(format!("{name}.job"));
    std::fs::create_dir_all(dir)
        .and_then(|()| std::fs::write(&path, job::write(job)))
        .map_err(|e| format!("{}: {e}", path.display()))
}
