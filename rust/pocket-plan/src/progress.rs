//! A plan made on a thread of its own, and its time told meanwhile.
use crate::words::many;
use pocket::{Plan, RawJob, Refusal};
use std::io::{IsTerminal, Write, stderr};
use std::sync::mpsc::{RecvTimeoutError, channel};
use std::thread;
use std::time::{Duration, Instant};

/// How often the time is told.
const EVERY: Duration = Duration::from_secs(1);

/// The answer to a job, and the time it took. The time is told on a terminal, else where `told` asks for it.
pub fn plan(job: &RawJob, told: bool) -> (Result<Plan, Refusal>, Duration) {
    let start = Instant::now();
    let terminal = stderr().is_terminal();
    let cells = many(job.cells(), "cell");
    let tell = |seconds: u64| {
        let line = format!("planning {cells}: {seconds} s");
        let _ = if terminal { write!(stderr(), "\r{line}") } else { writeln!(stderr(), "{line}") };
    };
    let answer = if terminal || told { while_told(|| job.plan(), EVERY, tell) } else { job.plan() };
    if terminal {
        let _ = write!(stderr(), "\r\x1b[K");
    }
    (answer, start.elapsed())
}

/// Works on a thread of its own, and tells the whole seconds so far now and then.
fn while_told<T: Send>(work: impl FnOnce() -> T + Send, every: Duration, tell: impl Fn(u64)) -> T {
    let start = Instant::now();
    thread::scope(|scope| {
        let (done, waiting) = channel();
        scope.spawn(move || {
            // The other end waits until this one is gone.
            let _ = done.send(work());
        });
        loop {
            match waiting.recv_timeout(every) {
                Ok(answer) => return answer,
                Err(RecvTimeoutError::Timeout) => tell(start.elapsed().as_secs()),
                Err(RecvTimeoutError::Disconnected) => panic!("the work ended without an answer"),
            }
        }
    })
}

#[cfg(test)]
mod tests {
    use super::*;
    use std::cell::Cell;

    #[test]
    fn time_is_told_while_it_works() {
        let told = Cell::new(0);
        let tell = |seconds: u64| told.set(told.get() + 1 + 1000 * seconds);
        let slow = || {
            thread::sleep(Duration::from_millis(200));
            7
        };
        assert_eq!(while_told(slow, Duration::from_millis(20), tell), 7);
        assert!((2..=10).contains(&told.get()), "{}", told.get());
        told.set(0);
        assert_eq!(while_told(|| 7, Duration::from_secs(60), tell), 7);
        assert_eq!(told.get(), 0);
    }
}
