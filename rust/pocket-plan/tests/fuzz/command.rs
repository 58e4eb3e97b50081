//! The command as a process.
use oracle::generate::Rng;
use pocket_plan::output::KINDS;
use std::fs::{self, File};
use std::path::{Path, PathBuf};
use std::process::{self, Child, ExitStatus, Stdio};
use std::thread::sleep;
use std::time::{Duration, Instant};

/// A run that takes longer hangs.
const LIMIT: Duration = Duration::from_secs(30);

pub struct Command {
    folder: PathBuf,
}

/// Its status, or that it hangs, and then is ended.
fn waited(child: &mut Child) -> Result<ExitStatus, String> {
    let start = Instant::now();
    loop {
        if let Some(status) = child.try_wait().unwrap() {
            return Ok(status);
        }
        if start.elapsed() > LIMIT {
            child.kill().unwrap();
            child.wait().unwrap();
            return Err(format!("no end within {} s", LIMIT.as_secs()));
        }
        sleep(Duration::from_millis(1));
    }
}

/// The first line tells the job's line and column.
fn placed(message: &str) -> bool {
    let place = message.split(": expected ").next().unwrap_or("");
    let mut numbers = place.rsplitn(3, ':').take(2);
    numbers.all(|n| n.parse::<usize>().is_ok_and(|n| n > 0))
}

/// What is printed where a file is too long to be read.
fn too_long(message: &str) -> bool {
    message.contains("cannot be read")
}

impl Command {
    pub fn new() -> Command {
        let name = format!("fuzz-{}-{:?}", process::id(), std::thread::current().id());
        let folder = Path::new(env!("CARGO_TARGET_TMPDIR")).join(name);
        fs::create_dir_all(&folder).unwrap();
        Command { folder }
    }

    /// Runs the command on a file, or on standard input, now and then with outputs: its exit status, or what is wrong.
    pub fn run(&self, r: &mut Rng, bytes: &[u8]) -> Result<usize, String> {
        let file = |name: &str| self.folder.join(name);
        fs::write(file("in.job"), bytes).unwrap();
        let mut command = process::Command::new(env!("CARGO_BIN_EXE_pocket-plan"));
        if r.chance(0.3) {
            command.arg("-").stdin(File::open(file("in.job")).unwrap());
        } else {
            command.arg(file("in.job")).stdin(Stdio::null());
        }
        if r.chance(0.3) {
            for kind in KINDS {
                // An image's ending; the others may have any.
                command.arg(kind.option).arg(file(&format!("out{}.png", kind.option)));
            }
        }
        let (out, err) = (File::create(file("stdout")).unwrap(), File::create(file("stderr")).unwrap());
        let mut child = command.stdout(out).stderr(err).spawn().unwrap();
        let status = waited(&mut child)?;
        let read = |name: &str| String::from_utf8_lossy(&fs::read(file(name)).unwrap()).into_owned();
        judged(status, &read("stdout"), &read("stderr"))
    }
}

/// Planned and refused are told on standard output; what is unusable, with its place, on standard error.
fn judged(status: ExitStatus, out: &str, err: &str) -> Result<usize, String> {
    let sound = match status.code() {
        Some(0) => out.contains(": planned in ") && err.is_empty(),
        Some(1) => out.contains(": refused in ") && err.is_empty(),
        Some(2) => out.is_empty() && !err.contains("panicked") && (placed(err) || too_long(err)),
        _ => false,
    };
    let code = status.code().unwrap_or(-1);
    if sound { Ok(code as usize) } else { Err(format!("{status}\n{out}\n{err}")) }
}

impl Drop for Command {
    fn drop(&mut self) {
        let _ = fs::remove_dir_all(&self.folder);
    }
}
