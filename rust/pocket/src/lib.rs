//! The proved pocket planner, called from safe Rust.
//!
//! [`Job::plan`] plans a job and owns all that the library is lent; [`Map`] is a stock map with the library's leaves;
//! [`linked`] has the library's functions as they are, over slices that the caller lends.
//!
//! Lengths are in mm, angles of a job in degrees, all other angles in radians, feeds in mm a minute.
#![deny(unsafe_code)]

mod job;
#[allow(unsafe_code)]
pub mod linked;
mod map;
mod plan;
mod refusal;

pub use job::{Job, Lent, Params, Point, RawJob, Shape};
pub use linked::{cos, narrow, sin, sqrt, wanted};
pub use map::{Contact, Distances, Log, Map};
pub use plan::{Chunk, Cut, Grid, MOST_ROWS, MOST_TRIPLES, Plan, Report, workspace_needed};
pub use refusal::{LAST, Refusal};
