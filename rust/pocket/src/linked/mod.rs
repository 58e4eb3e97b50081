//! The library's functions, each called over slices that the caller lends. All `unsafe` is here, and in `c`.
//!
//! A call is sound for all arguments: what is lent is a slice and its length, the library is proved to touch nothing
//! else, and any bits are a number to it.
pub mod c;

use crate::job::{Params, Point};
use crate::plan::{Grid, Report};
use crate::refusal::Refusal;

fn count(answer: c::Count) -> Result<usize, Refusal> {
    Refusal::answered(answer.refused).map(|()| answer.count)
}

fn number(answer: c::Number) -> Result<f64, Refusal> {
    Refusal::answered(answer.refused).map(|()| answer.value)
}

/// What a plan is lent, of any lengths.
pub struct Slices<'a> {
    pub bytes: &'a mut [u8],
    pub words: &'a mut [u32],
    pub singles: &'a mut [f32],
    pub doubles: &'a mut [f64],
    pub rows: &'a mut [u32],
    pub triples: &'a mut [f64],
}

/// Plans a job; `RawJob` says what the lists are.
pub fn adaptive_clear(
    p: &Params,
    whole: bool,
    vertices: &[f64],
    lengths: &[u32],
    regions: &[u32],
    lent: Slices,
) -> Result<Report, Refusal> {
    let answer = unsafe {
        c::pocket_adaptive_clear(
            c::Params::new(p, 0.0),
            whole,
            vertices.as_ptr(),
            vertices.len(),
            lengths.as_ptr(),
            lengths.len(),
            regions.as_ptr(),
            regions.len(),
            lent.bytes.as_mut_ptr(),
            lent.bytes.len(),
            lent.words.as_mut_ptr(),
            lent.words.len(),
            lent.singles.as_mut_ptr(),
            lent.singles.len(),
            lent.doubles.as_mut_ptr(),
            lent.doubles.len(),
            lent.rows.as_mut_ptr(),
            lent.rows.len(),
            lent.triples.as_mut_ptr(),
            lent.triples.len(),
        )
    };
    Refusal::answered(answer.refused).map(|()| answer.report)
}

/// Clears the disk; how many cells were stock.
pub fn clear_disk(grid: Grid, map: &mut [u8], center: Point, radius: f64) -> Result<usize, Refusal> {
    count(unsafe { c::pocket_clear_disk(grid, map.as_mut_ptr(), map.len(), center, radius) })
}

/// Clears the stock of the disk at `center` that is not in that at `before`, and appends its cells to the log's
/// `used` entries; how many it has then.
pub fn clear_crescent(
    grid: Grid,
    map: &mut [u8],
    [before, center]: [Point; 2],
    radius: f64,
    log: &mut [u32],
    used: usize,
) -> Result<usize, Refusal> {
    let (map, map_len) = (map.as_mut_ptr(), map.len());
    let (log, log_len) = (log.as_mut_ptr(), log.len());
    count(unsafe { c::pocket_clear_crescent(grid, map, map_len, before, center, radius, log, log_len, used) })
}

/// Sets the first `used` logged cells back to stock.
pub fn undo([nx, ny]: [usize; 2], map: &mut [u8], log: &[u32], used: usize) -> Result<(), Refusal> {
    let (at, len) = (map.as_mut_ptr(), map.len());
    Refusal::answered(unsafe { c::pocket_undo(nx, ny, at, len, log.as_ptr(), log.len(), used) })
}

/// Clears the first `used` logged cells again.
pub fn clear_again([nx, ny]: [usize; 2], map: &mut [u8], log: &[u32], used: usize) -> Result<(), Refusal> {
    let (at, len) = (map.as_mut_ptr(), map.len());
    Refusal::answered(unsafe { c::pocket_clear_again(nx, ny, at, len, log.as_ptr(), log.len(), used) })
}

/// How many stock cells are in the disk.
pub fn count_disk(grid: Grid, map: &[u8], center: Point, radius: f64) -> Result<usize, Refusal> {
    count(unsafe { c::pocket_count_disk(grid, map.as_ptr(), map.len(), center, radius) })
}

/// How many stock cells are in the map.
pub fn standing([nx, ny]: [usize; 2], map: &[u8]) -> Result<usize, Refusal> {
    count(unsafe { c::pocket_standing(nx, ny, map.as_ptr(), map.len()) })
}

/// How many points of a tool's rim are over stock, of how many sampled: as many as are asked for, at least 8.
pub fn contact(
    grid: Grid,
    map: &[u8],
    center: Point,
    radius: f64,
    samples: usize,
) -> Result<(usize, usize), Refusal> {
    let rim = unsafe { c::pocket_contact(grid, map.as_ptr(), map.len(), center, radius, samples) };
    Refusal::answered(rim.refused).map(|()| (rim.hits, rim.samples))
}

/// The angle that so many hits of so many samples stand for.
pub fn contact_angle(hits: usize, samples: usize) -> Result<f64, Refusal> {
    number(unsafe { c::pocket_contact_angle(hits, samples) })
}

/// Column and row of the cell that holds a point; none off the grid.
pub fn cell_of(grid: Grid, point: Point) -> Result<Option<(usize, usize)>, Refusal> {
    let cell = unsafe { c::pocket_cell_of(grid, point) };
    Refusal::answered(cell.refused).map(|()| cell.found.then_some((cell.column, cell.row)))
}

/// Sets the cells whose centre is in a region: in its outer loop, and in none of its islands.
pub fn fill_region(grid: Grid, map: &mut [u8], vertices: &[f64], lengths: &[u32]) -> Result<(), Refusal> {
    let (map, map_len) = (map.as_mut_ptr(), map.len());
    let (at, len) = (vertices.as_ptr(), vertices.len());
    Refusal::answered(unsafe {
        c::pocket_fill_region(grid, map, map_len, at, len, lengths.as_ptr(), lengths.len())
    })
}

/// The distance, in cells, of each cell to the nearest whose byte is `mark`: its square and its root.
pub fn distance_map(
    [nx, ny]: [usize; 2],
    marks: &[u8],
    mark: u8,
    squares: &mut [u32],
    distances: &mut [f64],
) -> Result<(), Refusal> {
    let (squares, squares_len) = (squares.as_mut_ptr(), squares.len());
    let (at, len) = (distances.as_mut_ptr(), distances.len());
    Refusal::answered(unsafe {
        c::pocket_distance_map(nx, ny, marks.as_ptr(), marks.len(), mark, squares, squares_len, at, len)
    })
}

/// IEEE 754's root, of 0 or more.
pub fn sqrt(x: f64) -> Result<f64, Refusal> {
    number(unsafe { c::pocket_sqrt(x) })
}

/// The nearest float.
pub fn narrow(x: f64) -> Result<f32, Refusal> {
    let answer = unsafe { c::pocket_narrow(x) };
    Refusal::answered(answer.refused).map(|()| answer.value)
}

/// Document 01's sine, of 0 to TAU.
pub fn sin(angle: f64) -> Result<f64, Refusal> {
    number(unsafe { c::pocket_sin(angle) })
}

/// Document 01's cosine, of 0 to TAU.
pub fn cos(angle: f64) -> Result<f64, Refusal> {
    number(unsafe { c::pocket_cos(angle) })
}

/// How many cells a pass of such a length is to remove at least.
pub fn wanted(length: f64, cell: f64) -> Result<usize, Refusal> {
    count(unsafe { c::pocket_wanted(length, cell) })
}
