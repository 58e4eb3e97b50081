//! The heap and the way of the layer `links`, with what their functions require kept by the wrappers: the
//! heap's slices are changed by `push` and `pop` alone, and a workspace is filled from a planner.
use crate::geom::Lent;
use crate::planners::sided;
use crate::setup::fill_tables;
use oracle::planner::Planner;
use oracle::vec2::{Vec2, v2};

mod linked {
    unsafe extern "C" {
        pub fn links_push(
            ests: *mut f64,
            ests_len: usize,
            nodes: *mut u32,
            nodes_len: usize,
            n: usize,
            est: f64,
            node: u32,
        );
        pub fn links_pop(
            ests: *mut f64,
            ests_len: usize,
            nodes: *mut u32,
            nodes_len: usize,
            n: usize,
            est: *mut f64,
            est_len: usize,
        ) -> u32;
        pub fn links_link_path(
            ox: f64,
            oy: f64,
            cell: f64,
            nx: usize,
            ny: usize,
            vs: *const f64,
            vs_len: usize,
            lens: *const u32,
            lens_len: usize,
            at: usize,
            first: usize,
            loops: usize,
            r: f64,
            keep: f64,
            samples: usize,
            map: *const u8,
            map_len: usize,
            allowed: *const u8,
            allowed_len: usize,
            u: *mut u32,
            u_len: usize,
            w: *mut f64,
            w_len: usize,
            out: *mut u64,
            out_len: usize,
            ax: f64,
            ay: f64,
            bx: f64,
            by: f64,
        ) -> bool;
    }
}

pub struct Heap {
    ests: Vec<f64>,
    nodes: Vec<u32>,
    n: usize,
}

impl Heap {
    /// What lies beyond the entries is free, so it is filled with numbers that would be seen.
    pub fn new(room: usize) -> Heap {
        Heap { ests: vec![-1e300; room], nodes: vec![0; room], n: 0 }
    }

    pub fn len(&self) -> usize {
        self.n
    }

    pub fn is_empty(&self) -> bool {
        self.n == 0
    }

    pub fn push(&mut self, est: f64, node: u32) {
        assert!(self.n < self.ests.len() && self.n < self.nodes.len());
        let (ests, nodes) = (&mut self.ests, &mut self.nodes);
        unsafe {
            linked::links_push(
                ests.as_mut_ptr(),
                ests.len(),
                nodes.as_mut_ptr(),
                nodes.len(),
                self.n,
                est,
                node,
            );
        }
        self.n += 1;
    }

    pub fn pop(&mut self) -> Option<(f64, u32)> {
        if self.n == 0 {
            return None;
        }
        let (ests, nodes) = (&mut self.ests, &mut self.nodes);
        let mut est = [0.0];
        let node = unsafe {
            linked::links_pop(
                ests.as_mut_ptr(),
                ests.len(),
                nodes.as_mut_ptr(),
                nodes.len(),
                self.n,
                est.as_mut_ptr(),
                est.len(),
            )
        };
        self.n -= 1;
        Some((est[0], node))
    }
}

/// A workspace in which ways are sought.
pub struct Ways {
    u: Vec<u32>,
    w: Vec<f64>,
    allowed: Vec<u8>,
}

/// A way's points, if there is one, and the work of its search.
pub struct Way {
    pub points: Option<Vec<Vec2>>,
    pub work: usize,
}

impl Ways {
    pub fn new(p: &Planner) -> Ways {
        sided(p);
        let n = p.nx * p.ny;
        let mut w = vec![-1e300; 32 * n + 8192];
        w[..n].copy_from_slice(&p.wall_dist);
        fill_tables(p, 0.0, &mut w[24 * n..]);
        Ways { u: vec![7; 32 * n + 8192], w, allowed: p.allowed.iter().map(|&a| a as u8).collect() }
    }

    /// `link_path` of the fields that a planner has, with the map as bytes.
    pub fn link_path(&mut self, p: &Planner, lent: &Lent, map: &[u8], a: Vec2, b: Vec2) -> Way {
        let n = p.nx * p.ny;
        lent.held();
        assert!(map.len() >= n && self.allowed.len() >= n && self.w.len() == 32 * n + 8192);
        assert!(self.u.len() == 32 * n + 8192 && p.samples <= 2048);
        let mut out = [0u64; 2];
        let found = unsafe {
            linked::links_link_path(
                p.m.origin.x,
                p.m.origin.y,
                p.cell,
                p.nx,
                p.ny,
                lent.vs.as_ptr(),
                lent.vs.len(),
                lent.lens.as_ptr(),
                lent.lens.len(),
                lent.at,
                lent.first,
                lent.loops,
                p.r,
                p.keep,
                p.samples,
                map.as_ptr(),
                map.len(),
                self.allowed.as_ptr(),
                self.allowed.len(),
                self.u.as_mut_ptr(),
                self.u.len(),
                self.w.as_mut_ptr(),
                self.w.len(),
                out.as_mut_ptr(),
                out.len(),
                a.x,
                a.y,
                b.x,
                b.y,
            )
        };
        let path = &self.w[20 * n..];
        let points = path.chunks(2).take(out[0] as usize).map(|q| v2(q[0], q[1])).collect();
        Way { points: found.then_some(points), work: out[1] as usize }
    }
}
