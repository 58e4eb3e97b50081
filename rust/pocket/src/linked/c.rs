//! The functions of c/pocket.h and its types that the crate has no other name for. To call one by its pointers is unsafe;
//! the functions above do it over slices.
use crate::job::{self, Point};
use crate::plan::{Grid, Report};

#[derive(Clone, Copy, Debug)]
#[repr(C)]
pub struct Setting {
    pub given: bool,
    pub value: f64,
}

#[derive(Clone, Copy, Debug)]
#[repr(C)]
pub struct Params {
    pub tool_diameter: f64,
    pub max_engagement_deg: f64,
    pub step_down: f64,
    pub top: f64,
    pub bottom: f64,
    pub stock_to_leave: f64,
    pub safe_z: f64,
    pub feed: f64,
    pub plunge_feed: f64,
    pub link_feed: f64,
    pub helix_ramp_deg: f64,
    pub helix_radius: Setting,
    pub chip_thinning_max: Setting,
    pub resolution: Setting,
    pub keep_tool_down: bool,
}

impl Params {
    /// A setting that is absent has `absent` for its number, which does not count.
    pub fn new(p: &job::Params, absent: f64) -> Params {
        let setting = |v: Option<f64>| Setting { given: v.is_some(), value: v.unwrap_or(absent) };
        Params {
            tool_diameter: p.tool_diameter,
            max_engagement_deg: p.max_engagement_deg,
            step_down: p.step_down,
            top: p.top,
            bottom: p.bottom,
            stock_to_leave: p.stock_to_leave,
            safe_z: p.safe_z,
            feed: p.feed,
            plunge_feed: p.plunge_feed,
            link_feed: p.link_feed,
            helix_ramp_deg: p.helix_ramp_deg,
            helix_radius: setting(p.helix_radius),
            chip_thinning_max: setting(p.chip_thinning_max),
            resolution: setting(p.resolution),
            keep_tool_down: p.keep_tool_down,
        }
    }
}

#[derive(Clone, Copy, Debug)]
#[repr(C)]
pub struct Answer {
    pub refused: u32,
    pub report: Report,
}

#[derive(Clone, Copy, Debug)]
#[repr(C)]
pub struct Count {
    pub refused: u32,
    pub count: usize,
}

#[derive(Clone, Copy, Debug)]
#[repr(C)]
pub struct Number {
    pub refused: u32,
    pub value: f64,
}

#[derive(Clone, Copy, Debug)]
#[repr(C)]
pub struct Single {
    pub refused: u32,
    pub value: f32,
}

#[derive(Clone, Copy, Debug)]
#[repr(C)]
pub struct Rim {
    pub refused: u32,
    pub hits: usize,
    pub samples: usize,
}

#[derive(Clone, Copy, Debug)]
#[repr(C)]
pub struct Cell {
    pub refused: u32,
    pub found: bool,
    pub column: usize,
    pub row: usize,
}

unsafe extern "C" {
    pub fn pocket_adaptive_clear(
        params: Params,
        whole: bool,
        vertices: *const f64,
        vertices_len: usize,
        lengths: *const u32,
        lengths_len: usize,
        regions: *const u32,
        regions_len: usize,
        bytes: *mut u8,
        bytes_len: usize,
        words: *mut u32,
        words_len: usize,
        singles: *mut f32,
        singles_len: usize,
        doubles: *mut f64,
        doubles_len: usize,
        rows: *mut u32,
        rows_len: usize,
        triples: *mut f64,
        triples_len: usize,
    ) -> Answer;

    pub fn pocket_clear_disk(grid: Grid, map: *mut u8, map_len: usize, center: Point, radius: f64) -> Count;
    pub fn pocket_clear_crescent(
        grid: Grid,
        map: *mut u8,
        map_len: usize,
        before: Point,
        center: Point,
        radius: f64,
        log: *mut u32,
        log_len: usize,
        used: usize,
    ) -> Count;
    pub fn pocket_undo(
        nx: usize,
        ny: usize,
        map: *mut u8,
        map_len: usize,
        log: *const u32,
        log_len: usize,
        used: usize,
    ) -> u32;
    pub fn pocket_clear_again(
        nx: usize,
        ny: usize,
        map: *mut u8,
        map_len: usize,
        log: *const u32,
        log_len: usize,
        used: usize,
    ) -> u32;
    pub fn pocket_count_disk(grid: Grid, map: *const u8, map_len: usize, center: Point, radius: f64)
    -> Count;
    pub fn pocket_standing(nx: usize, ny: usize, map: *const u8, map_len: usize) -> Count;
    pub fn pocket_contact(
        grid: Grid,
        map: *const u8,
        map_len: usize,
        center: Point,
        radius: f64,
        samples: usize,
    ) -> Rim;
    pub fn pocket_contact_angle(hits: usize, samples: usize) -> Number;
    pub fn pocket_cell_of(grid: Grid, point: Point) -> Cell;
    pub fn pocket_fill_region(
        grid: Grid,
        map: *mut u8,
        map_len: usize,
        vertices: *const f64,
        vertices_len: usize,
        lengths: *const u32,
        lengths_len: usize,
    ) -> u32;
    pub fn pocket_distance_map(
        nx: usize,
        ny: usize,
        marks: *const u8,
        marks_len: usize,
        mark: u8,
        squares: *mut u32,
        squares_len: usize,
        distances: *mut f64,
        distances_len: usize,
    ) -> u32;

    pub fn pocket_sqrt(x: f64) -> Number;
    pub fn pocket_narrow(x: f64) -> Single;
    pub fn pocket_sin(angle: f64) -> Number;
    pub fn pocket_cos(angle: f64) -> Number;
    pub fn pocket_wanted(length: f64, cell: f64) -> Count;
}
