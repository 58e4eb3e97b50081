//! The answers to the stored jobs have not changed: `rust/jobs/answers.txt` holds their fingerprints, by the changed fill
//! where the two disagree, and by the changed order where the two part.
use oracle::expected::expected;
use oracle::generate::NAMED;
use oracle::job;
use oracle::run::{fingerprint_line, print};
use oracle::stored::{jobs_folder, names, quick, stored};
use std::collections::BTreeSet;

#[test]
fn stored_answers() {
    let path = jobs_folder().join("answers.txt");
    let text = std::fs::read_to_string(&path).unwrap_or_else(|e| panic!("{}: {e}", path.display()));
    let mut compared = 0;
    for line in text.lines() {
        let (name, answer) = line.split_once(' ').unwrap_or_else(|| panic!("{line}"));
        let job = stored(name);
        if quick(&job) {
            assert_eq!(fingerprint_line(&print(&expected(&job, false).outcome, false)), answer, "{name}");
            compared += 1;
        }
    }
    assert!(compared > 100, "{compared}");
}

#[test]
fn every_stored_job_has_an_answer() {
    let jobs: BTreeSet<String> = names().into_iter().collect();
    let text = std::fs::read_to_string(jobs_folder().join("answers.txt")).unwrap();
    let answered: BTreeSet<String> =
        text.lines().filter_map(|l| Some(l.split_once(' ')?.0.to_string())).collect();
    assert_eq!(jobs, answered);
}

/// Written and read again, a job is the same.
#[test]
fn the_format_keeps_a_job() {
    let named = NAMED.map(Some);
    for (seed, kind) in
        (0..520).map(|seed| (seed, None)).chain((0..100).map(|k| (k, named[k as usize % NAMED.len()])))
    {
        let (job, kind) = oracle::generate::job(seed, kind).unwrap();
        let text = job::write(&job);
        assert_eq!(job::write(&job::parse(&text).unwrap()), text, "seed {seed} {kind}");
    }
    for bad in [
        "diameter",
        "diameter x",
        "width 3",
        "verts 2\n1 2",
        "verts 1\n1",
        "pocket 3 x",
        "region 3",
        "lent_rows -1",
    ] {
        assert!(job::parse(bad).is_err(), "{bad:?}");
    }
}
