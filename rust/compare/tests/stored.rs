//! The lines that the programs `vectors` and `vectors_maps` replay, and those that `vectors_plans` is to write,
//! are the answers of this Rust.
use std::path::Path;
use std::process::Command;

/// `program` writes what the crate of that name has stored.
fn same(name: &str, stream: &str, program: &str) {
    let file = Path::new(env!("CARGO_MANIFEST_DIR")).join("../../crates").join(name).join(stream);
    let stored = std::fs::read_to_string(file).expect("no stored answers");
    let run = Command::new(program).output().expect("no run");
    let answers = String::from_utf8(run.stdout).expect("not text");
    for (number, (old, new)) in stored.lines().zip(answers.lines()).enumerate() {
        assert_eq!(old, new, "line {} of crates/{name}/{stream}", number + 1);
    }
    assert_eq!(stored.lines().count(), answers.lines().count());
}

#[test]
fn stored_answers() {
    same("vectors", "stdin", env!("CARGO_BIN_EXE_vectors"));
}

#[test]
fn stored_answers_on_maps() {
    same("vectors_maps", "stdin", env!("CARGO_BIN_EXE_vectors_maps"));
}

#[test]
fn stored_plans() {
    same("vectors_plans", "stdout", env!("CARGO_BIN_EXE_vectors_plans"));
}
