//! The published pocket planner, completed by document 01: what the proved planner is compared with.
//!
//! `error`, `geom`, `raster` and `planner` are derived from `rust/printed` (see `build/`); the rest is
//! what the print leaves open, the job format, a generator of jobs, and a replay written apart.
pub mod circle;
pub mod entry;
pub mod expected;
pub mod fills;
pub mod generate;
pub mod hooks;
pub mod job;
pub mod order;
pub mod replay;
pub mod rim;
pub mod run;
pub mod stored;
pub mod switches;
pub mod vec2;
pub mod walls;

pub mod error {
    #![allow(dead_code)]
    include!(concat!(env!("OUT_DIR"), "/error.rs"));
}

pub mod geom {
    include!(concat!(env!("OUT_DIR"), "/geom.rs"));
}

pub mod planner {
    include!(concat!(env!("OUT_DIR"), "/adaptive.rs"));
}

pub mod raster {
    include!(concat!(env!("OUT_DIR"), "/raster.rs"));
}

/// The derived texts, to be read.
pub const DERIVED: [(&str, &str); 4] = [
    ("adaptive.rs", include_str!(concat!(env!("OUT_DIR"), "/adaptive.rs"))),
    ("raster.rs", include_str!(concat!(env!("OUT_DIR"), "/raster.rs"))),
    ("geom.rs", include_str!(concat!(env!("OUT_DIR"), "/geom.rs"))),
    ("error.rs", include_str!(concat!(env!("OUT_DIR"), "/error.rs"))),
];
