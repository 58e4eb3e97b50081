//! geom.rs: what the planner uses of it.
use crate::derive::{Edit, omit, publish, replace};

pub const EDITS: &[Edit] = &[
    replace(7, "`include!` takes no inner doc comment", "//!", "//"),
    // Not used by the planner. `Region::new` would clean its loops: a job's are taken as they are.
    omit("POINT_EPS, signed_area", "/// Points closer than this", "/// Even-odd point in polygon test."),
    omit("clean_loop", "/// Removes repeated and collinear points", "/// A planar region to machine"),
    omit(
        "Region::new, rectangle, circle",
        "    /// Builds a region, cleaning and orienting",
        "    /// All loops: the outer first",
    ),
    omit("Region::area", "    pub fn area(&self)", "    /// (min, max) corners"),
    omit(
        "boundary_distance",
        "    /// Distance from `p` to the nearest boundary",
        "    /// Every boundary segment.",
    ),
    omit(
        "circles, arcs, offsets",
        "/// Points on a circle, counter-clockwise.",
        "/// A spatial bucket index",
    ),
    omit("distance_within", "\n    /// Distance to the nearest segment, searching", "}\n\n"),
    replace(1, "errors", "use crate::error::{CamError, Result};\n", ""),
    omit("crates at the registry", "use cavalier_contours::polyline", "/// Even-odd point in polygon test."),
    replace(1, "no serde", ", Serialize, Deserialize)]", ")]"),
    // Leaves not printed.
    replace(1, "vectors by document 01", "use anvil_kernel::{Vec2, v2};", "use crate::vec2::{Vec2, v2};\n"),
    // `SegIndex::any_within` in ../src/walls.rs looks at every segment, as document 01 asks.
    replace(1, "the printed form, by buckets", "pub fn any_within(", "pub fn any_within_printed("),
    publish(&["    segs: Vec<(Vec2, Vec2)>,\n    origin"]),
];
