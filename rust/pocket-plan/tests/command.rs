//! The command as a person runs it: what it prints, writes and ends with.
use std::io::Write;
use std::path::{Path, PathBuf};
use std::process::{Command, Output, Stdio};
use std::{env, fs, process};

fn command(words: &[&str]) -> Command {
    let mut command = Command::new(env!("CARGO_BIN_EXE_pocket-plan"));
    command.args(words).current_dir(Path::new(env!("CARGO_MANIFEST_DIR")).join("../..")).stdin(Stdio::null());
    command
}

fn run(words: &[&str]) -> Output {
    command(words).output().unwrap()
}

fn status(output: &Output) -> i32 {
    output.status.code().unwrap()
}

fn out(output: &Output) -> String {
    String::from_utf8(output.stdout.clone()).unwrap()
}

fn err(output: &Output) -> String {
    String::from_utf8(output.stderr.clone()).unwrap()
}

/// Plans a text from standard input.
fn plan(text: &[u8]) -> Output {
    let mut child =
        command(&["-"]).stdin(Stdio::piped()).stdout(Stdio::piped()).stderr(Stdio::piped()).spawn().unwrap();
    child.stdin.take().unwrap().write_all(text).unwrap();
    child.wait_with_output().unwrap()
}

/// A folder of this test alone, gone at its end.
struct Folder(PathBuf);

impl Folder {
    fn new(name: &str) -> Folder {
        let path = env::temp_dir().join(format!("pocket-plan-{name}-{}", process::id()));
        fs::create_dir_all(&path).unwrap();
        Folder(path)
    }

    fn file(&self, name: &str) -> String {
        self.0.join(name).to_string_lossy().into_owned()
    }
}

impl Drop for Folder {
    fn drop(&mut self) {
        let _ = fs::remove_dir_all(&self.0);
    }
}

#[test]
fn help_is_printed() {
    for words in [&["--help"][..], &["-h"], &["jobs/small.job", "--help"]] {
        let output = run(words);
        assert_eq!(status(&output), 0);
        for part in ["--svg FILE", "--list FILE", "--map FILE", "Examples:", "Exit status"] {
            assert!(out(&output).contains(part), "{part}");
        }
    }
}

#[test]
fn a_job_is_planned_and_told() {
    let output = run(&["jobs/small.job"]);
    assert_eq!((status(&output), err(&output)), (0, String::new()));
    let text = out(&output);
    assert!(text.starts_with("jobs/small.job: planned in "));
    for part in [
        "4 mm",
        "of 80 degrees: ",
        " rim points",
        "1 layer",
        "mm2 (",
        "passes",
        "1 helix entry",
        "rows",
        "cells of 0.066 mm",
    ] {
        assert!(text.contains(part), "{part}: {text}");
    }
    assert!(!text.contains("wrote"));
}

#[test]
fn outputs_are_written_and_named() {
    let folder = Folder::new("outputs");
    let names = ["plan.svg", "list.tsv", "left.png", "left.pgm"].map(|name| folder.file(name));
    let [svg, list, png, pgm] = names.each_ref().map(String::as_str);
    // Options come in any order, with a blank or `=`.
    let joined = format!("--map={pgm}");
    let output = run(&["--map", png, "--svg", svg, "jobs/small.job", &joined, "--list", list]);
    assert_eq!(status(&output), 0, "{}", err(&output));
    for name in &names {
        assert!(out(&output).contains(&format!("wrote {name}: ")), "{name}");
        assert!(fs::metadata(name).unwrap().len() > 1000);
    }
}

#[test]
fn a_file_that_cannot_be_written() {
    let output = run(&["jobs/small.job", "--svg", "/nowhere/plan.svg"]);
    assert_eq!(status(&output), 2);
    assert!(
        out(&output).contains("planned in") && err(&output).contains("/nowhere/plan.svg: cannot be written")
    );
}

#[test]
fn a_refusal_is_told() {
    let output = run(&["jobs/refused.job"]);
    assert_eq!((status(&output), err(&output)), (1, String::new()));
    let text = out(&output);
    assert!(text.starts_with("jobs/refused.job: refused in "));
    assert!(text.contains(
        "\n  18: is the chunk list non-empty, or the starting stock empty? No: the pocket is about "
    ));
    let folder = Folder::new("refused");
    let svg = folder.file("plan.svg");
    assert_eq!(status(&run(&["jobs/refused.job", "--svg", &svg])), 1);
    assert!(!Path::new(&svg).exists());
}

#[test]
fn unusable_files() {
    for (text, place, found) in [
        (&b"diametre 6\n"[..], "standard input:1:1: ", "`diametre`"),
        (b"top 1\nfeed \xff\n", "standard input:2:6: ", "the byte 0xff"),
        (b"", "standard input:1:1: ", "the end of the file"),
        (b"verts 99999999999\n", "standard input:1:18: ", "the end of the file"),
    ] {
        let output = plan(text);
        assert_eq!((status(&output), out(&output)), (2, String::new()));
        let text = err(&output);
        assert!(text.starts_with(place) && text.contains(&format!("found {found}")), "{text}");
        assert!(text.trim_end().ends_with('^'), "{text}");
    }
    for file in ["jobs/none.job", "jobs", "/dev/zero"] {
        let output = run(&[file]);
        assert_eq!(status(&output), 2);
        assert!(err(&output).starts_with(&format!("{file}: cannot be read: ")));
    }
}

#[test]
fn unusable_options() {
    for (words, told) in [
        (&["jobs/small.job", "--sgv", "x"][..], "expected an option, found `--sgv` (--svg?)"),
        (&["jobs/small.job", "--svg"], "--svg: expected a file after it, found none"),
        (&["jobs/small.job", "--svg="], "--svg: expected a file after it, found none"),
        (
            &["jobs/small.job", "--map", "a.txt"],
            "--map: expected a file that ends in .png or .pgm, found a.txt",
        ),
        (
            &["jobs/small.job", "--list", "jobs/small.job"],
            "expected different files, found jobs/small.job twice",
        ),
        (&["jobs/small.job", "jobs/refused.job"], "expected one job file, found `jobs/refused.job` too"),
        (&[], "expected a job file, found none"),
    ] {
        let output = run(words);
        assert_eq!((status(&output), out(&output)), (2, String::new()));
        assert_eq!(err(&output), format!("{told}\npocket-plan --help tells more\n"));
    }
}

#[test]
fn time_is_told_while_it_plans() {
    // It may be done within the first second; what is told is the size and the time.
    let output = run(&["jobs/open-side.job", "--progress"]);
    assert_eq!(status(&output), 0);
    for (k, line) in err(&output).lines().enumerate() {
        assert_eq!(line, format!("planning 235,625 cells: {} s", k + 1));
    }
    assert_eq!(err(&run(&["jobs/open-side.job"])), "");
}

/// The sentence of a refusal of a job over 12 by 10 mm with more lines.
fn refusal(lines: &str) -> String {
    let square = if lines.contains("verts") { "" } else { "pocket 4\nverts 4\n0 0\n12 0\n12 10\n0 10\n" };
    let output = plan(format!("{lines}\n{square}").as_bytes());
    assert_eq!(status(&output), 1, "{lines}: {}{}", out(&output), err(&output));
    out(&output).lines().nth(1).unwrap().trim().to_string()
}

#[test]
fn every_refusal_says_the_value_that_failed() {
    for (lines, number, value) in [
        ("diameter 0", 1, "diameter is 0 mm"),
        ("engagement 180", 2, "engagement is 180 degrees"),
        ("step_down nan", 3, "step_down is NaN mm"),
        ("bottom 1", 4, "top is 0 mm, bottom is 1 mm"),
        ("leave -0.1", 5, "leave is -0.1 mm"),
        ("safe_z 0", 6, "safe_z is 0 mm, top is 0 mm"),
        ("plunge_feed 0\nlink_feed inf", 7, "plunge_feed is 0 mm/min, link_feed is inf mm/min"),
        ("ramp 46", 8, "ramp is 46 degrees"),
        ("helix 0", 9, "helix is 0 mm"),
        ("chip 0.5", 10, "chip is 0.5"),
        ("resolution 0.11", 11, "resolution is 0.11 mm, diameter/60 is 0.1 mm"),
        ("diameter 0.05", 12, "diameter is 0.05 mm; "),
        ("resolution 0.001", 12, "the cell is 0.001 mm; give a resolution from 0.006 to 0.1 mm"),
        ("leave 101", 12, "leave is 101 mm; "),
        ("helix 1001", 12, "helix is 1001 mm; "),
        ("bottom -70000", 12, "(top - bottom)/step_down is 11666.6"),
        ("pocket\nverts 0", 13, "the outer loop of the pocket is missing"),
        ("pocket 3 2\nverts 0", 13, "island 1 of the pocket has 2 vertices"),
        ("pocket 3\nstock 1\nregion 3 1\nverts 0", 13, "island 1 of stock region 1 has 1 vertices"),
        ("pocket 3\nverts 1\n0 0", 13, "the loops have 3 vertices by their lengths, and `verts` has 1"),
        ("pocket 3\nverts 3\n0 0\n1 0\n0 10001", 13, "y of vertex 3 is 10001 mm"),
        ("pocket 3\nverts 3\n0 0\n200 0\n0 200", 14, "the raster is 2,672 by 2,672 cells of 0.075 mm"),
        ("lent_f32 5", 15, "lent_f32 is 5 and "),
        ("lent_triples 9", 16, "the plan needs more than 9 triples; "),
        ("lent_rows 1", 17, "the plan needs more than 1 rows; "),
        ("diameter 9\nbottom -9", 18, "the pocket is about 10.1"),
        ("helix 0.5", 18, "helix is 0.5 mm, and an entry has a radius of at least 0.6 mm"),
    ] {
        let told = refusal(lines);
        assert!(told.starts_with(&format!("{number}: ")), "{lines}: {told}");
        assert!(told.contains(&format!("? No: {value}")), "{lines}: {told}");
    }
}

#[test]
fn too_many_loops_regions_and_vertices_are_counted() {
    let islands = format!("pocket{}\nverts 0", " 3".repeat(66));
    assert!(refusal(&islands).contains("? No: a region has 65 islands; "));
    let regions = format!("pocket 3\nstock 17\n{}verts 0", "region 3\n".repeat(17));
    assert!(refusal(&regions).contains("? No: there are 17 stock regions; "));
    let vertices = format!("pocket 4097\nverts 4097\n{}", "0 0\n".repeat(4097));
    assert!(refusal(&vertices).contains("? No: there are 4,097 vertices; "));
}
