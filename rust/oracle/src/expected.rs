//! The answer that a job is expected to have. Document 02 changes the fill of a region (`fills`) and the order of equally near
//! pieces (`order`); where a change makes no difference to a job the answer is the print's own.
use crate::fills;
use crate::job::Job;
use crate::run::{Outcome, print, run};
use crate::switches::{self, Switches};

/// A job's expected answer, and what makes a difference to it.
pub struct Expected {
    pub outcome: Outcome,
    /// Whether the two fills set the same cells; else the outcome is by the changed fill.
    pub fills_agree: bool,
    /// Whether the two orders, by that fill, give the same answer; else the outcome is by the changed order.
    pub orders_agree: bool,
}

impl Expected {
    /// The answer no to a question before planning.
    pub fn refused(number: u32) -> Expected {
        Expected { outcome: Outcome::refused(number), fills_agree: true, orders_agree: true }
    }
}

/// The job run as it is expected to be; `record` keeps its events.
pub fn expected(job: &Job, record: bool) -> Expected {
    let fills_agree = fills::agree(job);
    let by = |longer_first| {
        let how = Switches { fill_contains: !fills_agree, longer_first, ..switches::get() };
        switches::with(how, || run(job, record))
    };
    let printed = by(false);
    if printed.parted == 0 {
        // The changed order makes every choice alike, one after the other.
        return Expected { outcome: printed, fills_agree, orders_agree: true };
    }
    let changed = by(true);
    let orders_agree = print(&printed, false) == print(&changed, false);
    Expected { outcome: changed, fills_agree, orders_agree }
}
