//! The functions of the layer `geom`, with what they require as assertions.
use oracle::geom::Region;
use oracle::vec2::{Vec2, v2};

mod linked {
    unsafe extern "C" {
        pub fn geom_lerp(ax: f64, ay: f64, bx: f64, by: f64, t: f64, out: *mut f64, out_len: usize);
        pub fn geom_normalized(x: f64, y: f64, out: *mut f64, out_len: usize);
        pub fn geom_from_angle(a: f64, out: *mut f64, out_len: usize);
        pub fn geom_perp(x: f64, y: f64, out: *mut f64, out_len: usize);
        pub safe fn geom_dot(ax: f64, ay: f64, bx: f64, by: f64) -> f64;
        pub safe fn geom_cross(ax: f64, ay: f64, bx: f64, by: f64) -> f64;
        pub safe fn geom_length(x: f64, y: f64) -> f64;
        pub safe fn geom_distance(ax: f64, ay: f64, bx: f64, by: f64) -> f64;
        pub safe fn geom_seg_distance(px: f64, py: f64, ax: f64, ay: f64, bx: f64, by: f64) -> f64;
        pub fn geom_point_in_loop(vs: *const f64, vs_len: usize, at: usize, n: usize, x: f64, y: f64)
        -> bool;
        pub fn geom_contains(
            vs: *const f64,
            vs_len: usize,
            lens: *const u32,
            lens_len: usize,
            at: usize,
            first: usize,
            loops: usize,
            x: f64,
            y: f64,
        ) -> bool;
        pub fn geom_any_within(
            vs: *const f64,
            vs_len: usize,
            lens: *const u32,
            lens_len: usize,
            at: usize,
            first: usize,
            loops: usize,
            x: f64,
            y: f64,
            r: f64,
        ) -> bool;
        pub fn geom_bounds(
            vs: *const f64,
            vs_len: usize,
            lens: *const u32,
            lens_len: usize,
            at: usize,
            first: usize,
            loops: usize,
            out: *mut f64,
            out_len: usize,
        );
    }
}

pub fn lerp(a: Vec2, b: Vec2, t: f64) -> Vec2 {
    let mut out = [0.0; 2];
    unsafe { linked::geom_lerp(a.x, a.y, b.x, b.y, t, out.as_mut_ptr(), 2) };
    v2(out[0], out[1])
}

pub fn normalized(a: Vec2) -> Vec2 {
    let mut out = [0.0; 2];
    unsafe { linked::geom_normalized(a.x, a.y, out.as_mut_ptr(), 2) };
    v2(out[0], out[1])
}

pub fn from_angle(a: f64) -> Vec2 {
    let mut out = [0.0; 2];
    unsafe { linked::geom_from_angle(a, out.as_mut_ptr(), 2) };
    v2(out[0], out[1])
}

pub fn perp(a: Vec2) -> Vec2 {
    let mut out = [0.0; 2];
    unsafe { linked::geom_perp(a.x, a.y, out.as_mut_ptr(), 2) };
    v2(out[0], out[1])
}

pub fn dot(a: Vec2, b: Vec2) -> f64 {
    linked::geom_dot(a.x, a.y, b.x, b.y)
}

pub fn cross(a: Vec2, b: Vec2) -> f64 {
    linked::geom_cross(a.x, a.y, b.x, b.y)
}

pub fn length(a: Vec2) -> f64 {
    linked::geom_length(a.x, a.y)
}

pub fn distance(a: Vec2, b: Vec2) -> f64 {
    linked::geom_distance(a.x, a.y, b.x, b.y)
}

pub fn seg_distance(p: Vec2, a: Vec2, b: Vec2) -> f64 {
    linked::geom_seg_distance(p.x, p.y, a.x, a.y, b.x, b.y)
}

/// Vertices and loop lengths as they are lent, with a region's place in them.
pub struct Lent {
    pub vs: Vec<f64>,
    pub lens: Vec<u32>,
    pub at: usize,
    pub first: usize,
    pub loops: usize,
}

impl Lent {
    /// A region behind `at` vertices and `first` lengths of others.
    pub fn new(region: &Region, at: usize, first: usize) -> Lent {
        let mut vs = vec![f64::NAN; 2 * at];
        let mut lens = vec![u32::MAX; first];
        for l in region.loops() {
            lens.push(l.len() as u32);
            vs.extend(l.iter().flat_map(|p| [p.x, p.y]));
        }
        let loops = lens.len() - first;
        Lent { vs, lens, at, first, loops }
    }

    pub fn point_in_loop(&self, at: usize, n: usize, p: Vec2) -> bool {
        assert!(2 * (at + n) <= self.vs.len());
        unsafe { linked::geom_point_in_loop(self.vs.as_ptr(), self.vs.len(), at, n, p.x, p.y) }
    }

    /// The lengths and vertices of the region are lent.
    pub fn held(&self) {
        assert!(self.loops > 0 && self.first + self.loops <= self.lens.len());
        let n: usize = self.lens[self.first..self.first + self.loops].iter().map(|&n| n as usize).sum();
        assert!(2 * (self.at + n) <= self.vs.len());
    }

    pub fn contains(&self, p: Vec2) -> bool {
        self.held();
        unsafe {
            linked::geom_contains(
                self.vs.as_ptr(),
                self.vs.len(),
                self.lens.as_ptr(),
                self.lens.len(),
                self.at,
                self.first,
                self.loops,
                p.x,
                p.y,
            )
        }
    }

    pub fn any_within(&self, p: Vec2, r: f64) -> bool {
        self.held();
        unsafe {
            linked::geom_any_within(
                self.vs.as_ptr(),
                self.vs.len(),
                self.lens.as_ptr(),
                self.lens.len(),
                self.at,
                self.first,
                self.loops,
                p.x,
                p.y,
                r,
            )
        }
    }

    pub fn bounds(&self) -> (Vec2, Vec2) {
        self.held();
        let mut out = [0.0; 4];
        unsafe {
            linked::geom_bounds(
                self.vs.as_ptr(),
                self.vs.len(),
                self.lens.as_ptr(),
                self.lens.len(),
                self.at,
                self.first,
                self.loops,
                out.as_mut_ptr(),
                4,
            );
        }
        (v2(out[0], out[1]), v2(out[2], out[3]))
    }
}
