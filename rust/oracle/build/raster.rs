//! raster.rs: the map.
use crate::derive::{Edit, omit, publish, replace};

pub const EDITS: &[Edit] = &[
    replace(9, "`include!` takes no inner doc comment", "//!", "//"),
    // Left out by document 01, or used only by what it leaves out.
    omit(
        "clear_capsule",
        "    /// Clears the band swept by a disk",
        "    /// Engagement angle (radians) of a tool",
    ),
    omit(
        "engagement_solid and engagement_arc, which only measure_engagement uses",
        "    /// Like [`Grid::engagement`], but a point",
        "    /// Iterates over set cells.",
    ),
    // Leaves not printed.
    replace(
        1,
        "vectors and the house sine and cosine, by document 01",
        "use anvil_kernel::{Vec2, v2};",
        "use crate::circle::{cos, sin};\nuse crate::vec2::{Vec2, v2};",
    ),
    replace(1, "house sine and cosine", "v2(a.cos(), a.sin())", "v2(cos(a), sin(a))"),
    replace(0, "no other cosine", ".cos()", ""),
    replace(0, "no other sine", ".sin()", ""),
    // `Grid::engagement` in ../src/rim.rs is this one, or the same bits from a table of directions.
    replace(1, "the printed form, sample by sample", "pub fn engagement(", "pub fn engagement_printed("),
    // `Grid::fill_region` in ../src/fills.rs is this one, or the changed fill.
    replace(
        1,
        "the printed form, even-odd over all loops",
        "pub fn fill_region(",
        "pub fn fill_region_printed(",
    ),
    replace(2, "for the comparison", "pub(crate) fn", "pub fn"),
    publish(&["    data: Vec<bool>,\n}", "    fn disk_row", "    fn rows_of", "    fn crescent_row"]),
];
