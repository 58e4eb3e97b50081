//! The field of the layer `field`, with what it requires as assertions.
use crate::planners::sided;
use crate::setup::fill_tables;
use oracle::planner::Planner;

mod linked {
    unsafe extern "C" {
        pub fn field_round(
            ox: f64,
            oy: f64,
            cell: f64,
            nx: usize,
            ny: usize,
            r: f64,
            target: f64,
            samples: usize,
            all: bool,
            b: *mut u8,
            b_len: usize,
            u: *mut u32,
            u_len: usize,
            w: *const f64,
            w_len: usize,
            f: *mut f32,
            f_len: usize,
        ) -> usize;
    }
}

/// A workspace in which the field is worked out, round by round: N bytes a region as setup's layout has
/// them.
pub struct Rounds {
    b: Vec<u8>,
    u: Vec<u32>,
    f: Vec<f32>,
    w: Vec<f64>,
}

impl Rounds {
    pub fn new(p: &Planner) -> Rounds {
        sided(p);
        let n = p.nx * p.ny;
        let mut w = vec![-1e300; 32 * n + 8192];
        fill_tables(p, 0.0, &mut w[24 * n..]);
        Rounds { b: vec![7; 8 * n], u: vec![7; 32 * n + 8192], f: vec![7.0; 2 * n], w }
    }

    /// Takes over the map, the allowed and the dirty cells.
    pub fn take(&mut self, p: &Planner) {
        let n = p.nx * p.ny;
        for (region, cells) in [(0, &p.m.data), (1, &p.allowed), (4, &p.dirty)] {
            for (byte, &cell) in self.b[region * n..].iter_mut().zip(cells) {
                *byte = cell as u8;
            }
        }
    }

    /// The field of what was taken over; how many cells were sampled.
    pub fn field(&mut self, p: &Planner, all: bool) -> usize {
        let n = p.nx * p.ny;
        assert!(self.b.len() == 8 * n && self.f.len() == 2 * n && p.samples <= 2048);
        unsafe {
            linked::field_round(
                p.m.origin.x,
                p.m.origin.y,
                p.cell,
                p.nx,
                p.ny,
                p.r,
                p.target,
                p.samples,
                all,
                self.b.as_mut_ptr(),
                self.b.len(),
                self.u.as_mut_ptr(),
                self.u.len(),
                self.w.as_ptr(),
                self.w.len(),
                self.f.as_mut_ptr(),
                self.f.len(),
            )
        }
    }

    pub fn values(&self) -> &[f32] {
        &self.f[..self.f.len() / 2]
    }

    pub fn dirty(&self) -> &[u8] {
        let n = self.f.len() / 2;
        &self.b[4 * n..5 * n]
    }
}
