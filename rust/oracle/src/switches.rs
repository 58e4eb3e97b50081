//! Ways to run the planner. Each holds for the current thread.
use std::cell::Cell;

#[derive(Clone, Copy, Debug, Default, PartialEq)]
pub struct Switches {
    /// Sine and cosine at each sample, as printed; else from a table of the same bits.
    pub plain_rim: bool,
    /// Walls by the printed buckets; else every segment.
    pub buckets: bool,
    /// Regions filled by `contains`, the changed fill; else even-odd over all loops, as printed.
    pub fill_contains: bool,
    /// Of equally near pieces the one with more points first, the changed order; else the earlier, as printed.
    pub longer_first: bool,
    /// Wrong on purpose: on equal estimates the higher node number.
    pub higher_first: bool,
    /// Wrong on purpose: the first insert wins in the contour's edge map.
    pub first_wins: bool,
    /// Wrong on purpose: by the changed order the piece with fewer points.
    pub fewer_first: bool,
    /// Wrong on purpose: by the changed order the later of pieces that are equally near and have as many points.
    pub later_first: bool,
}

thread_local! {
    static SWITCHES: Cell<Switches> = const {
        Cell::new(Switches {
            plain_rim: false,
            buckets: false,
            fill_contains: false,
            longer_first: false,
            higher_first: false,
            first_wins: false,
            fewer_first: false,
            later_first: false,
        })
    };
}

pub fn get() -> Switches {
    SWITCHES.get()
}

pub fn set(s: Switches) {
    SWITCHES.set(s);
}

/// Works with these switches; those before hold again afterwards.
pub fn with<T>(s: Switches, work: impl FnOnce() -> T) -> T {
    let before = SWITCHES.replace(s);
    let done = work();
    SWITCHES.set(before);
    done
}
