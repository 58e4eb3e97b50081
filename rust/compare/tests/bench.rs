//! The proved bench over an open pipe: each line is answered before the next one is sent.
use std::io::{BufRead, BufReader, Write};
use std::process::{Command, Stdio};
use std::sync::mpsc;
use std::thread;
use std::time::Duration;

/// The program as `rt ci` and, in crates/bench, `rt run` build it.
const BENCH: &str = concat!(env!("CARGO_MANIFEST_DIR"), "/../../crates/bench/out/bench");

#[test]
fn each_line_is_answered_when_it_has_been_read() {
    let mut bench = Command::new(BENCH)
        .stdin(Stdio::piped())
        .stdout(Stdio::piped())
        .spawn()
        .expect("crates/bench/out/bench: run `rt run` in crates/bench first");
    let out = BufReader::new(bench.stdout.take().unwrap());
    let (send, answers) = mpsc::channel();
    let reader = thread::spawn(move || out.lines().for_each(|l| send.send(l.unwrap()).unwrap()));
    let mut input = bench.stdin.take().unwrap();
    // document 01's example, then a line in two parts and one without its line feed
    for (parts, answer) in [
        (&["map\t5\t5\n"][..], "map 25"),
        (&["pass\t6\t10\t10\t10\t4\n"], "pass 3 22"),
        (&["un", "do\n"], "undo 25"),
    ] {
        for part in parts {
            input.write_all(part.as_bytes()).unwrap();
            input.flush().unwrap();
        }
        let said = answers.recv_timeout(Duration::from_secs(30)).expect("no answer while the pipe is open");
        assert_eq!(said, answer);
    }
    input.write_all(b"map\t2\t3").unwrap();
    drop(input);
    assert_eq!(answers.recv_timeout(Duration::from_secs(30)).unwrap(), "map 6");
    reader.join().unwrap();
    assert!(answers.recv().is_err());
    assert!(bench.wait().unwrap().success());
}
