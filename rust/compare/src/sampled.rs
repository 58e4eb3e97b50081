//! Where the library's time goes. Nothing inside a proved call can be timed from outside, so the thread's CPU clock
//! interrupts it every few milliseconds and notes where it is: the instruction's address, and those to which the functions
//! that `FRAMES` have called will return. For x86-64 Linux, as the library is.
use crate::planner;
use crate::symbols::Symbols;
use std::cell::{Cell, UnsafeCell};
use std::ffi::c_void;
use std::ops::Range;

/// What a caller of the planner calls.
const ENTRY: &str = "pocket_adaptive_clear";

/// What the compiler has put the rounds of a plan into, and what it calls to cut a piece.
pub const FRAMES: [&str; 2] = ["planner::outcome::plan_fit", "rounds::round::cut_next"];

/// Most samples that are kept, and the time between two.
const MOST: usize = 200_000;
const BETWEEN_NS: i64 = 1_000_000;

#[derive(Clone, Copy, Default)]
struct Sample {
    at: usize,
    /// Into each of `FRAMES`; 0 where it runs itself, or not at all.
    back: [usize; 2],
}

/// What the interrupt of a thread reads and writes.
struct Notes {
    /// The addresses of `FRAMES`: from, up to.
    frames: Cell<[(usize, usize); 2]>,
    /// The stack before the call.
    stack: Cell<usize>,
    used: Cell<usize>,
    samples: UnsafeCell<Vec<Sample>>,
}

thread_local! {
    static NOTES: Notes = const {
        Notes {
            frames: Cell::new([(0, 0); 2]),
            stack: Cell::new(0),
            used: Cell::new(MOST),
            samples: UnsafeCell::new(Vec::new()),
        }
    };
}

#[repr(C)]
struct Action {
    handler: extern "C" fn(i32, *mut c_void, *mut c_void),
    mask: [u64; 16],
    flags: i32,
    restorer: usize,
}

#[repr(C)]
struct Event {
    value: usize,
    signal: i32,
    notify: i32,
    thread: i32,
    rest: [i32; 11],
}

#[repr(C)]
struct Interval {
    /// Seconds and nanoseconds: between two, and until the first.
    times: [i64; 4],
}

unsafe extern "C" {
    fn sigaction(signal: i32, new: *const Action, old: *mut c_void) -> i32;
    fn timer_create(clock: i32, event: *const Event, timer: *mut usize) -> i32;
    fn timer_settime(timer: usize, flags: i32, new: *const Interval, old: *mut c_void) -> i32;
    fn timer_delete(timer: usize) -> i32;
    fn gettid() -> i32;
}

const SIGPROF: i32 = 27;
const SA_SIGINFO_RESTART: i32 = 4 | 0x1000_0000;
const CLOCK_THREAD_CPUTIME_ID: i32 = 3;
const SIGEV_THREAD_ID: i32 = 4;

extern "C" fn note(_: i32, _: *mut c_void, context: *mut c_void) {
    // The registers begin at byte 40 of the context; the 15th is the stack's, the 16th the instruction's.
    let (top, at) = unsafe {
        let registers = context.cast::<usize>().add(5);
        (*registers.add(15), *registers.add(16))
    };
    NOTES.with(|notes| {
        let used = notes.used.get();
        if used >= MOST {
            return;
        }
        // A frame comes before those of what it calls; the first of its addresses there is where its call returns.
        let (mut place, mut back) = (notes.stack.get() & !7, [0; 2]);
        for (back, (start, end)) in back.iter_mut().zip(notes.frames.get()) {
            if (start..end).contains(&at) {
                break;
            }
            while *back == 0 && place > top {
                place -= 8;
                // Between the stack's top and its place before the call.
                let word = unsafe { *(place as *const usize) };
                // No call returns to the first address.
                *back = if word > start && word < end { word } else { 0 };
            }
        }
        // Room for all was made before, and nothing else looks at it while the timer runs.
        unsafe { (&mut (*notes.samples.get()))[used] = Sample { at, back } };
        notes.used.set(used + 1);
    });
}

/// A sample by names: the function that runs, and those that `FRAMES` have called; empty where there is none.
pub type Met = Vec<(String, [String; 2])>;

/// Runs the work, in which the thread calls the planner once; what was met.
pub fn sampled(work: impl FnOnce()) -> Met {
    let Some(symbols) = Symbols::new(ENTRY, planner::entry()) else { return Met::new() };
    let ranges = FRAMES.map(|name| symbols.range(name).unwrap_or(0..0));
    let called = |back: usize| {
        if back == 0 {
            return String::new();
        }
        // A call of five bytes: its distance stands before the address to which it returns.
        let distance = unsafe { ((back - 4) as *const i32).read_unaligned() };
        symbols.name(back.wrapping_add_signed(distance as isize)).to_string()
    };
    noted(ranges, work).iter().map(|s| (symbols.name(s.at).to_string(), s.back.map(called))).collect()
}

fn noted(ranges: [Range<usize>; 2], work: impl FnOnce()) -> Vec<Sample> {
    let here = 0usize;
    NOTES.with(|notes| {
        // No timer runs.
        unsafe { *notes.samples.get() = vec![Sample::default(); MOST] };
        notes.used.set(0);
        notes.stack.set(&raw const here as usize);
        notes.frames.set(ranges.map(|range| (range.start, range.end)));
    });
    let timer = start();
    work();
    // The timer of `start`.
    unsafe { timer_delete(timer) };
    NOTES.with(|notes| {
        let used = notes.used.replace(MOST);
        // No timer runs, and a last signal finds no room.
        let mut samples = std::mem::take(unsafe { &mut *notes.samples.get() });
        samples.truncate(used);
        samples
    })
}

fn start() -> usize {
    let action = Action { handler: note, mask: [0; 16], flags: SA_SIGINFO_RESTART, restorer: 0 };
    let mut timer = 0;
    // The structs are Linux's; the handler touches the thread's own notes alone.
    unsafe {
        let event =
            Event { value: 0, signal: SIGPROF, notify: SIGEV_THREAD_ID, thread: gettid(), rest: [0; 11] };
        let interval = Interval { times: [0, BETWEEN_NS, 0, BETWEEN_NS] };
        assert_eq!(sigaction(SIGPROF, &action, std::ptr::null_mut()), 0);
        assert_eq!(timer_create(CLOCK_THREAD_CPUTIME_ID, &event, &mut timer), 0);
        assert_eq!(timer_settime(timer, 0, &interval, std::ptr::null_mut()), 0);
    }
    timer
}
