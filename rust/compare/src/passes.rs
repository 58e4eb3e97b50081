//! A pass tried by the layer `passes`, with what it requires as assertions.
use crate::geom::Lent;
use crate::planners::sided;
use crate::setup::Tables;
use oracle::planner::Planner;
use oracle::vec2::{Vec2, v2};

mod linked {
    unsafe extern "C" {
        pub fn passes_simulate(
            ox: f64,
            oy: f64,
            cell: f64,
            nx: usize,
            ny: usize,
            wall: *const f64,
            wall_len: usize,
            vs: *const f64,
            vs_len: usize,
            lens: *const u32,
            lens_len: usize,
            at: usize,
            first: usize,
            loops: usize,
            r: f64,
            wide: f64,
            keep: f64,
            target: f64,
            guard: f64,
            samples: usize,
            tables: *const f64,
            tables_len: usize,
            guide: *const f64,
            guide_len: usize,
            map: *mut u8,
            map_len: usize,
            log: *mut u32,
            log_len: usize,
            triples: *mut f64,
            triples_len: usize,
            kept: usize,
            out: *mut u64,
            out_len: usize,
        ) -> bool;
    }
}

/// What `simulate` is lent, and the map it works on.
pub struct Trials {
    pub map: Vec<u8>,
    log: Vec<u32>,
    tables: Tables,
    triples: Vec<f64>,
}

/// A pass that was tried: its points with their contacts, the cells it cleared in order, its work.
pub struct Trial {
    pub full: bool,
    pub points: Vec<(Vec2, f64)>,
    pub log: Vec<usize>,
    pub work: usize,
}

impl Trials {
    pub fn new(p: &Planner, triples: usize) -> Trials {
        sided(p);
        let map: Vec<u8> = p.m.data.iter().map(|&b| b as u8).collect();
        Trials {
            log: vec![7; map.len()],
            map,
            tables: Tables::new(p, p.r_guard),
            triples: vec![-1e300; 3 * triples],
        }
    }

    /// `simulate` of the fields that a planner has, behind `kept` triples.
    pub fn simulate(&mut self, p: &Planner, lent: &Lent, pts: &[Vec2], kept: usize) -> Trial {
        let n = p.nx * p.ny;
        lent.held();
        assert!(p.wall_dist.len() >= n && self.map.len() >= n && self.log.len() >= n);
        assert!(!pts.is_empty() && p.samples <= 2048);
        let guide: Vec<f64> = pts.iter().flat_map(|q| [q.x, q.y]).collect();
        let mut out = [0u64; 3];
        let full = unsafe {
            linked::passes_simulate(
                p.m.origin.x,
                p.m.origin.y,
                p.cell,
                p.nx,
                p.ny,
                p.wall_dist.as_ptr(),
                p.wall_dist.len(),
                lent.vs.as_ptr(),
                lent.vs.len(),
                lent.lens.as_ptr(),
                lent.lens.len(),
                lent.at,
                lent.first,
                lent.loops,
                p.r,
                p.r_guard,
                p.keep,
                p.target,
                p.guard,
                p.samples,
                self.tables.0.as_ptr(),
                self.tables.0.len(),
                guide.as_ptr(),
                guide.len(),
                self.map.as_mut_ptr(),
                self.map.len(),
                self.log.as_mut_ptr(),
                self.log.len(),
                self.triples.as_mut_ptr(),
                self.triples.len(),
                kept,
                out.as_mut_ptr(),
                out.len(),
            )
        };
        let [points, removed, work] = out.map(|v| v as usize);
        let triples = &self.triples[3 * kept..];
        Trial {
            full,
            points: triples.chunks(3).take(points).map(|t| (v2(t[0], t[1]), t[2])).collect(),
            log: self.log[..removed].iter().map(|&k| k as usize).collect(),
            work,
        }
    }

    /// The map as it was before the pass.
    pub fn undo(&mut self, trial: &Trial) {
        for &k in &trial.log {
            self.map[k] = 1;
        }
    }
}
