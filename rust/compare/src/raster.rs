//! The functions of the layer `raster`, with what they require as assertions.
use crate::geom::Lent;
use oracle::vec2::{Vec2, v2};

mod linked {
    unsafe extern "C" {
        pub fn raster_new(
            lx: f64,
            ly: f64,
            hx: f64,
            hy: f64,
            cell: f64,
            margin: f64,
            out: *mut f64,
            out_len: usize,
        ) -> u64;
        pub safe fn raster_cell_of(ox: f64, oy: f64, cell: f64, nx: usize, ny: usize, x: f64, y: f64) -> u64;
        pub safe fn raster_disk_row(
            ox: f64,
            oy: f64,
            cell: f64,
            nx: usize,
            ny: usize,
            x: f64,
            y: f64,
            r: f64,
            j: usize,
        ) -> u64;
        pub fn raster_center(ox: f64, oy: f64, cell: f64, i: usize, j: usize, out: *mut f64, out_len: usize);
        pub fn raster_at(
            ox: f64,
            oy: f64,
            cell: f64,
            nx: usize,
            ny: usize,
            map: *const u8,
            map_len: usize,
            x: f64,
            y: f64,
        ) -> bool;
        pub fn raster_count(map: *const u8, map_len: usize) -> usize;
        pub fn raster_intersect(map: *mut u8, map_len: usize, other: *const u8, other_len: usize);
        pub fn raster_clear_disk(
            ox: f64,
            oy: f64,
            cell: f64,
            nx: usize,
            ny: usize,
            map: *mut u8,
            map_len: usize,
            x: f64,
            y: f64,
            r: f64,
        ) -> usize;
        pub fn raster_count_disk(
            ox: f64,
            oy: f64,
            cell: f64,
            nx: usize,
            ny: usize,
            map: *const u8,
            map_len: usize,
            x: f64,
            y: f64,
            r: f64,
        ) -> usize;
        pub fn plain_count_disk(
            ox: f64,
            oy: f64,
            cell: f64,
            nx: usize,
            ny: usize,
            map: *const u8,
            map_len: usize,
            x: f64,
            y: f64,
            r: f64,
        ) -> usize;
        pub fn raster_clear_disk_after_logged(
            ox: f64,
            oy: f64,
            cell: f64,
            nx: usize,
            ny: usize,
            map: *mut u8,
            map_len: usize,
            px: f64,
            py: f64,
            x: f64,
            y: f64,
            r: f64,
            log: *mut u32,
            log_len: usize,
            count: usize,
        ) -> usize;
        pub fn raster_undo(map: *mut u8, map_len: usize, log: *const u32, log_len: usize, count: usize);
        pub fn raster_clear_again(
            map: *mut u8,
            map_len: usize,
            log: *const u32,
            log_len: usize,
            count: usize,
        );
        pub fn raster_engagement(
            ox: f64,
            oy: f64,
            cell: f64,
            nx: usize,
            ny: usize,
            map: *const u8,
            map_len: usize,
            x: f64,
            y: f64,
            r: f64,
            samples: usize,
            rim: *mut f64,
            rim_len: usize,
        ) -> f64;
        pub fn raster_fill_region(
            ox: f64,
            oy: f64,
            cell: f64,
            nx: usize,
            ny: usize,
            map: *mut u8,
            map_len: usize,
            vs: *const f64,
            vs_len: usize,
            lens: *const u32,
            lens_len: usize,
            at: usize,
            first: usize,
            loops: usize,
        );
    }
}

/// The corner and the sides of the grid over two corners, or document 01's refusal.
pub fn new(lo: Vec2, hi: Vec2, cell: f64, margin: f64) -> Result<(Vec2, usize, usize), u64> {
    let mut out = [f64::NAN; 2];
    let k = unsafe { linked::raster_new(lo.x, lo.y, hi.x, hi.y, cell, margin, out.as_mut_ptr(), 2) };
    if k >> 32 == 0 {
        assert!(out[0].is_nan() && out[1].is_nan());
        return Err(k);
    }
    Ok((v2(out[0], out[1]), (k & 0xffff_ffff) as usize, (k >> 32) as usize))
}

/// A grid with its lent map and log.
#[derive(Clone)]
pub struct Stock {
    pub origin: Vec2,
    pub cell: f64,
    pub nx: usize,
    pub ny: usize,
    pub map: Vec<u8>,
    pub log: Vec<u32>,
    pub count: usize,
}

impl Stock {
    pub fn new(origin: Vec2, cell: f64, nx: usize, ny: usize) -> Stock {
        assert!((1..=4096).contains(&nx) && (1..=4096).contains(&ny) && nx * ny <= 1_048_576);
        Stock { origin, cell, nx, ny, map: vec![0; nx * ny], log: vec![u32::MAX; nx * ny], count: 0 }
    }

    pub fn cell_of(&self, p: Vec2) -> Option<(usize, usize)> {
        let k = linked::raster_cell_of(self.origin.x, self.origin.y, self.cell, self.nx, self.ny, p.x, p.y);
        (k != u64::MAX).then_some(((k & 0xffff_ffff) as usize, (k >> 32) as usize))
    }

    pub fn disk_row(&self, c: Vec2, r: f64, j: usize) -> Option<(usize, usize)> {
        let o = self.origin;
        let k = linked::raster_disk_row(o.x, o.y, self.cell, self.nx, self.ny, c.x, c.y, r, j);
        (k != u64::MAX).then_some(((k & 0xffff_ffff) as usize, (k >> 32) as usize))
    }

    pub fn center(&self, i: usize, j: usize) -> Vec2 {
        let mut out = [0.0; 2];
        unsafe { linked::raster_center(self.origin.x, self.origin.y, self.cell, i, j, out.as_mut_ptr(), 2) };
        v2(out[0], out[1])
    }

    pub fn at(&self, p: Vec2) -> bool {
        let (o, m) = (self.origin, &self.map);
        unsafe { linked::raster_at(o.x, o.y, self.cell, self.nx, self.ny, m.as_ptr(), m.len(), p.x, p.y) }
    }

    pub fn standing(&self) -> usize {
        unsafe { linked::raster_count(self.map.as_ptr(), self.map.len()) }
    }

    pub fn intersect(&mut self, other: &[u8]) {
        assert!(self.map.len() <= other.len());
        unsafe {
            linked::raster_intersect(self.map.as_mut_ptr(), self.map.len(), other.as_ptr(), other.len())
        };
    }

    pub fn clear_disk(&mut self, c: Vec2, r: f64) -> usize {
        let (o, m) = (self.origin, &mut self.map);
        unsafe {
            linked::raster_clear_disk(
                o.x,
                o.y,
                self.cell,
                self.nx,
                self.ny,
                m.as_mut_ptr(),
                m.len(),
                c.x,
                c.y,
                r,
            )
        }
    }

    pub fn count_disk(&self, c: Vec2, r: f64) -> usize {
        let (o, m) = (self.origin, &self.map);
        unsafe {
            linked::raster_count_disk(o.x, o.y, self.cell, self.nx, self.ny, m.as_ptr(), m.len(), c.x, c.y, r)
        }
    }

    /// The same by the plain form.
    pub fn plain_count_disk(&self, c: Vec2, r: f64) -> usize {
        let (o, m) = (self.origin, &self.map);
        unsafe {
            linked::plain_count_disk(o.x, o.y, self.cell, self.nx, self.ny, m.as_ptr(), m.len(), c.x, c.y, r)
        }
    }

    /// How many cells the crescent from prev to c cleared; their numbers are in the log.
    pub fn clear_disk_after_logged(&mut self, prev: Vec2, c: Vec2, r: f64) -> usize {
        assert!(self.count + self.standing() <= self.log.len());
        let (o, before) = (self.origin, self.count);
        self.count = unsafe {
            linked::raster_clear_disk_after_logged(
                o.x,
                o.y,
                self.cell,
                self.nx,
                self.ny,
                self.map.as_mut_ptr(),
                self.map.len(),
                prev.x,
                prev.y,
                c.x,
                c.y,
                r,
                self.log.as_mut_ptr(),
                self.log.len(),
                before,
            )
        };
        self.count - before
    }

    fn logged(&self) {
        assert!(self.count <= self.log.len());
        assert!(self.log[..self.count].iter().all(|&k| (k as usize) < self.map.len()));
    }

    pub fn undo(&mut self) {
        self.logged();
        let (m, l) = (&mut self.map, &self.log);
        unsafe { linked::raster_undo(m.as_mut_ptr(), m.len(), l.as_ptr(), l.len(), self.count) };
    }

    pub fn clear_again(&mut self) {
        self.logged();
        let (m, l) = (&mut self.map, &self.log);
        unsafe { linked::raster_clear_again(m.as_mut_ptr(), m.len(), l.as_ptr(), l.len(), self.count) };
    }

    /// Sets the cells whose centre is in the region by `contains`.
    pub fn fill_region(&mut self, lent: &Lent) {
        lent.held();
        let (o, m) = (self.origin, &mut self.map);
        unsafe {
            linked::raster_fill_region(
                o.x,
                o.y,
                self.cell,
                self.nx,
                self.ny,
                m.as_mut_ptr(),
                m.len(),
                lent.vs.as_ptr(),
                lent.vs.len(),
                lent.lens.as_ptr(),
                lent.lens.len(),
                lent.at,
                lent.first,
                lent.loops,
            );
        }
    }

    pub fn engagement(&self, c: Vec2, r: f64, samples: usize) -> f64 {
        let (o, m) = (self.origin, &self.map);
        let mut rim = vec![0.0; 2 * samples.max(8)];
        unsafe {
            linked::raster_engagement(
                o.x,
                o.y,
                self.cell,
                self.nx,
                self.ny,
                m.as_ptr(),
                m.len(),
                c.x,
                c.y,
                r,
                samples,
                rim.as_mut_ptr(),
                rim.len(),
            )
        }
    }
}
