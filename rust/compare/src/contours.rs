//! The functions of the layers `contours` and `smoothing`, with what they require as assertions.
use crate::planners::sided;
use oracle::planner::{Piece, Planner};
use oracle::vec2::{Vec2, v2};

mod linked {
    unsafe extern "C" {
        pub fn contours_trace(
            ox: f64,
            oy: f64,
            cell: f64,
            nx: usize,
            ny: usize,
            f: *const f32,
            f_len: usize,
            level: f32,
            words: *mut u32,
            words_len: usize,
            marks: *mut u8,
            marks_len: usize,
            pts: *mut f64,
            pts_len: usize,
        ) -> usize;
        pub fn contours_smooth(
            rows: *mut u32,
            rows_len: usize,
            pts: *mut f64,
            pts_len: usize,
            m: usize,
            cell: f64,
        );
    }
}

/// The points of one piece, smoothed.
pub fn smoothed(pts: &[Vec2], closed: bool, cell: f64) -> Vec<Vec2> {
    let mut xy: Vec<f64> = pts.iter().flat_map(|q| [q.x, q.y]).collect();
    let mut row = [0, pts.len() as u32, closed as u32];
    unsafe {
        linked::contours_smooth(row.as_mut_ptr(), row.len(), xy.as_mut_ptr(), xy.len(), 1, cell);
    }
    assert_eq!((row[0], row[2]), (0, closed as u32));
    xy[..2 * row[1] as usize].chunks(2).map(|q| v2(q[0], q[1])).collect()
}

/// What `trace` is lent for a raster of n cells: filled with what would be seen if it were read.
pub struct Space {
    words: Vec<u32>,
    marks: Vec<u8>,
    pts: Vec<f64>,
}

impl Space {
    pub fn new(n: usize) -> Space {
        Space { words: vec![7; 9 * n], marks: vec![1; 2 * n], pts: vec![-1e300; 4 * n] }
    }

    /// The pieces of a field on the planner's raster, as rows and points hold them.
    pub fn trace(&mut self, p: &Planner, f: &[f32], level: f32) -> usize {
        let n = p.nx * p.ny;
        sided(p);
        assert!(f.len() >= n && self.pts.len() >= 4 * n);
        assert!(self.words.len() == 9 * n && self.marks.len() == 2 * n);
        unsafe {
            linked::contours_trace(
                p.m.origin.x,
                p.m.origin.y,
                p.cell,
                p.nx,
                p.ny,
                f.as_ptr(),
                f.len(),
                level,
                self.words.as_mut_ptr(),
                self.words.len(),
                self.marks.as_mut_ptr(),
                self.marks.len(),
                self.pts.as_mut_ptr(),
                self.pts.len(),
            )
        }
    }

    /// Smooths the first m pieces, which `trace` has laid one behind the other.
    pub fn smooth(&mut self, m: usize, cell: f64) {
        let rows = self.words.len() / 3 * 2;
        let rows = &mut self.words[rows..];
        assert!(3 * m <= rows.len());
        unsafe {
            linked::contours_smooth(
                rows.as_mut_ptr(),
                rows.len(),
                self.pts.as_mut_ptr(),
                self.pts.len(),
                m,
                cell,
            );
        }
    }

    /// The first m pieces.
    pub fn pieces(&self, m: usize) -> Vec<Piece> {
        let rows = &self.words[self.words.len() / 3 * 2..];
        rows.chunks(3)
            .take(m)
            .map(|row| {
                let (first, points) = (row[0] as usize, row[1] as usize);
                let pts =
                    self.pts[2 * first..2 * (first + points)].chunks(2).map(|q| v2(q[0], q[1])).collect();
                Piece { pts, closed: row[2] == 1 }
            })
            .collect()
    }
}
