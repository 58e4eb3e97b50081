//! The functions of the layer `distance`, with what they require as assertions.
mod linked {
    unsafe extern "C" {
        pub fn distance_transform(
            marks: *const u8,
            marks_len: usize,
            mark: u8,
            nx: usize,
            ny: usize,
            work: *mut u32,
            work_len: usize,
        );
        pub fn distance_distances(
            squares: *const u32,
            squares_len: usize,
            n: usize,
            out: *mut f64,
            out_len: usize,
        );
        pub safe fn distance_limit(scaled: bool, scale: f64, strict: bool, x: f64) -> u32;
        pub safe fn distance_within(scaled: bool, scale: f64, strict: bool, x: f64, square: u32) -> bool;
        pub safe fn distance_beyond(scaled: bool, scale: f64, x: f64, square: u32) -> bool;
    }
}
pub use linked::{distance_beyond as beyond, distance_limit as limit, distance_within as within};

/// The squares of the cells to those whose byte is `mark`, then 3 nx zeros.
pub fn transform(marks: &[u8], mark: u8, nx: usize, ny: usize, work: &mut [u32]) {
    assert!((1..=4096).contains(&nx) && (1..=4096).contains(&ny));
    assert!(marks.len() >= nx * ny && work.len() >= nx * ny + 3 * nx);
    unsafe {
        linked::distance_transform(marks.as_ptr(), marks.len(), mark, nx, ny, work.as_mut_ptr(), work.len());
    }
}

/// The rounded roots of the first n squares.
pub fn distances(squares: &[u32], n: usize, out: &mut [f64]) {
    assert!(squares.len() >= n && out.len() >= n);
    unsafe {
        linked::distance_distances(squares.as_ptr(), squares.len(), n, out.as_mut_ptr(), out.len());
    }
}
