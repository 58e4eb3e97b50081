//! The functions of the layer `setup` and the straight link, with what they require as assertions.
use crate::geom::Lent;
use crate::planners::sided;
use oracle::planner::Planner;
use oracle::vec2::Vec2;

mod linked {
    unsafe extern "C" {
        pub safe fn setup_guard_of(limit: f64, cell: f64, r: f64) -> f64;
        pub safe fn setup_target_of(guard: f64) -> f64;
        pub safe fn setup_samples_of(r: f64, cell: f64) -> usize;
        pub fn setup_allowed_at(
            ox: f64,
            oy: f64,
            cell: f64,
            nx: usize,
            ny: usize,
            wall: *const f64,
            wall_len: usize,
            vs: *const f64,
            vs_len: usize,
            lens: *const u32,
            lens_len: usize,
            at: usize,
            first: usize,
            loops: usize,
            keep: f64,
            x: f64,
            y: f64,
        ) -> bool;
        pub fn setup_fill_tables(
            ox: f64,
            oy: f64,
            cell: f64,
            nx: usize,
            ny: usize,
            r: f64,
            wide: f64,
            samples: usize,
            w: *mut f64,
            w_len: usize,
        );
        pub fn links_link_clear(
            ox: f64,
            oy: f64,
            cell: f64,
            nx: usize,
            ny: usize,
            wall: *const f64,
            wall_len: usize,
            vs: *const f64,
            vs_len: usize,
            lens: *const u32,
            lens_len: usize,
            at: usize,
            first: usize,
            loops: usize,
            r: f64,
            keep: f64,
            samples: usize,
            map: *const u8,
            map_len: usize,
            tables: *const f64,
            tables_len: usize,
            ax: f64,
            ay: f64,
            bx: f64,
            by: f64,
        ) -> bool;
    }
}
pub use linked::{setup_guard_of as guard_of, setup_samples_of as samples_of, setup_target_of as target_of};

fn over(p: &Planner) {
    assert!((1..=4096).contains(&p.nx) && (1..=4096).contains(&p.ny) && p.nx * p.ny <= 1_048_576);
    assert!(p.wall_dist.len() >= p.nx * p.ny && p.m.data.len() >= p.nx * p.ny);
}

/// `allowed_at` of the fields that a planner has.
pub fn allowed_at(p: &Planner, lent: &Lent, q: Vec2) -> bool {
    over(p);
    lent.held();
    unsafe {
        linked::setup_allowed_at(
            p.m.origin.x,
            p.m.origin.y,
            p.cell,
            p.nx,
            p.ny,
            p.wall_dist.as_ptr(),
            p.wall_dist.len(),
            lent.vs.as_ptr(),
            lent.vs.len(),
            lent.lens.as_ptr(),
            lent.lens.len(),
            lent.at,
            lent.first,
            lent.loops,
            p.keep,
            q.x,
            q.y,
        )
    }
}

/// Fills the tool's tables of a planner, with those of a rim of radius `wide`, into the f64 of a workspace.
pub fn fill_tables(p: &Planner, wide: f64, w: &mut [f64]) {
    sided(p);
    assert!(p.samples <= 2048 && w.len() >= 8192);
    let o = p.m.origin;
    unsafe {
        linked::setup_fill_tables(o.x, o.y, p.cell, p.nx, p.ny, p.r, wide, p.samples, w.as_mut_ptr(), w.len())
    }
}

/// The tool's tables of a planner.
pub struct Tables(pub Vec<f64>);

impl Tables {
    /// With those of a rim of radius `wide`, in as many floats as a workspace has for them.
    pub fn new(p: &Planner, wide: f64) -> Tables {
        let mut w = vec![-1e300; 8 * p.nx * p.ny + 8192];
        fill_tables(p, wide, &mut w);
        Tables(w)
    }
}

/// `link_clear` of the fields that a planner has, with the map as bytes.
pub fn link_clear(p: &Planner, lent: &Lent, tables: &Tables, map: &[u8], a: Vec2, b: Vec2) -> bool {
    over(p);
    lent.held();
    assert!(map.len() >= p.nx * p.ny);
    unsafe {
        linked::links_link_clear(
            p.m.origin.x,
            p.m.origin.y,
            p.cell,
            p.nx,
            p.ny,
            p.wall_dist.as_ptr(),
            p.wall_dist.len(),
            lent.vs.as_ptr(),
            lent.vs.len(),
            lent.lens.as_ptr(),
            lent.lens.len(),
            lent.at,
            lent.first,
            lent.loops,
            p.r,
            p.keep,
            p.samples,
            map.as_ptr(),
            map.len(),
            tables.0.as_ptr(),
            tables.0.len(),
            a.x,
            a.y,
            b.x,
            b.y,
        )
    }
}
