//! The proved library beside the published Rust.
//!
//! `numbers` lists the functions to compare, `ffi` declares them, `inputs` has the numbers they are
//! compared on; `distance`, `geom`, `raster`, `setup`, `field`, `contours`, `links`, `passes` and `cutting` have the
//! functions that are lent slices, and `planners` the planners whose fields are lent. `planner` has the call of whole
//! jobs, `raw` a job as it is lent, `noisy` slices full of noise, `reserved` slices longer than memory, `planned` the comparison, `drawn` jobs of all kinds,
//! `extreme` those at the limits of document 01. The tests compare bits, and `scale` does on many jobs; the programs
//! `bench`, `bench_disks`, `bench_fill`, `bench_distance`, `bench_contours`, `bench_links`, `bench_cutting` and
//! `bench_plans` time.
pub mod bits;
pub mod contours;
pub mod cutting;
pub mod distance;
pub mod drawn;
pub mod extreme;
pub mod ffi;
pub mod field;
pub mod geom;
pub mod inputs;
pub mod links;
pub mod noisy;
pub mod numbers;
pub mod passes;
pub mod planned;
pub mod planner;
pub mod planners;
pub mod prints;
pub mod raster;
pub mod raw;
pub mod reserved;
pub mod sampled;
pub mod setup;
pub mod symbols;
pub mod timing;
