//! The oracle's planners of generated jobs, with cuts made in their maps; its plan, a piece at a time.
use crate::geom::Lent;
use oracle::entry;
use oracle::generate::{self, Rng};
use oracle::hooks::Hooks;
use oracle::job::Job;
use oracle::order::Places;
use oracle::planner::{Chunk, Piece, Planner, smooth};
use oracle::vec2::{Vec2, v2};

const JOBS: u64 = 60;

/// No round begins with more work.
const MAX_WORK: usize = 2_000_000_000;

/// Whether the sides of the planner's raster are those that document 01 lets through.
pub fn sided(p: &Planner) {
    assert!((1..=4096).contains(&p.nx) && (1..=4096).contains(&p.ny) && p.nx * p.ny <= 1_048_576);
}

/// A point of the raster or near it, one in three times a cell's centre.
pub fn point(r: &mut Rng, p: &Planner) -> Vec2 {
    let o = p.m.origin;
    let (w, h) = (p.nx as f64 * p.cell, p.ny as f64 * p.cell);
    match r.below(3) {
        0 => p.m.center(r.below(p.nx as u64) as usize, r.below(p.ny as u64) as usize),
        _ => v2(o.x + r.range(-0.05, 1.05) * w, o.y + r.range(-0.05, 1.05) * h),
    }
}

/// Clears up to `cuts` disks of the planner's map, and marks their cells as cut since the last round.
pub fn cut(r: &mut Rng, p: &mut Planner, cuts: u64) {
    let before = p.m.data.clone();
    for _ in 0..r.below(cuts) {
        let (c, rad) = (point(r, p), p.r * r.range(0.5, 3.0));
        p.m.clear_disk(c, rad);
    }
    for (k, was) in before.into_iter().enumerate() {
        p.dirty[k] |= was && !p.m.data[k];
    }
}

/// Calls `work` with each accepted job of the generator.
pub fn each_job(mut work: impl FnMut(&Job)) {
    let mut jobs = 0;
    for seed in 0..JOBS {
        let (job, _) = generate::job(seed, None).unwrap();
        if entry::refused(&job).is_none() {
            jobs += 1;
            work(&job);
        }
    }
    assert!(jobs > JOBS / 2);
}

/// Calls `work` with the job's planner, to which rows and triples enough are lent; `record` keeps its events.
pub fn with_planner(job: &Job, record: bool, work: impl FnOnce(&mut Planner, &Lent)) {
    let (region, stock) = job.regions();
    let mut hooks = Hooks::new(usize::MAX, usize::MAX, record);
    let mut p = Planner::new(&region, stock.as_deref(), &job.params, &mut hooks).unwrap();
    work(&mut p, &Lent::new(&region, 1, 2));
}

/// Calls `check` with the planner of each accepted job, its map partly cleared.
pub fn each(mut check: impl FnMut(&mut Rng, &mut Planner, &Lent)) {
    let mut r = Rng(41);
    each_job(|job| {
        with_planner(job, false, |p, lent| {
            cut(&mut r, p, 40);
            check(&mut r, p, lent);
        });
    });
}

/// Calls `work` with the name and the planner of each of the larger jobs, its map partly cleared.
pub fn each_large(mut work: impl FnMut(&str, &mut Rng, &mut Planner, &Lent)) {
    let mut r = Rng(1);
    for (name, job) in generate::large() {
        with_planner(&job, false, |p, lent| {
            cut(&mut r, p, 40);
            work(name, &mut r, p, lent);
        });
    }
}

/// What is done with the pieces of a plan.
pub trait Cutter {
    /// A round begins: its field is worked out, and the helix of the round before is listed.
    fn begin(&mut self, p: &mut Planner);
    /// Whether the piece was cut.
    fn cut(&mut self, p: &mut Planner, piece: &Piece) -> bool;
}

/// The oracle's `plan` with `cut_piece` left to the cutter; whether it came to its end within so many
/// rounds.
pub fn plan(p: &mut Planner, rounds: usize, cutter: &mut impl Cutter) -> bool {
    let mut cleanup = false;
    for _ in 0..rounds {
        if p.work > MAX_WORK {
            return true;
        }
        let pieces = traced(p);
        cutter.begin(p);
        if cut_nearest(p, pieces, cutter) {
            cleanup = false;
            continue;
        }
        if !cleanup {
            cleanup = true;
            if cut_ring(p, cutter) {
                continue;
            }
        }
        if !enter(p) {
            return true;
        }
        cleanup = false;
    }
    false
}

fn traced(p: &mut Planner) -> Vec<Piece> {
    let dist = p.material_distance();
    let f = p.field(&dist);
    let mut pieces = p.contours(&f, (2.0 * p.target) as f32);
    for piece in &mut pieces {
        smooth(&mut piece.pts, piece.closed, p.cell);
    }
    pieces
}

fn cut_nearest(p: &mut Planner, mut pieces: Vec<Piece>, cutter: &mut impl Cutter) -> bool {
    let mut any = false;
    while !pieces.is_empty() {
        let here = p.pos.unwrap_or(Vec2::ZERO);
        let far = |piece: &Piece| match piece.closed {
            true => piece.pts.iter().map(|q| q.distance(here)).fold(f64::INFINITY, f64::min),
            false => piece.pts[0].distance(here),
        };
        let next = pieces.iter().map(far).enumerate().next_piece(&pieces, p.hooks);
        let piece = pieces.swap_remove(next.map_or(0, |(k, _)| k));
        any |= cutter.cut(p, &piece);
    }
    any
}

fn cut_ring(p: &mut Planner, cutter: &mut impl Cutter) -> bool {
    let ring: Vec<f32> = p.allowed.iter().map(|&a| if a { 0.0 } else { 1.0 }).collect();
    let mut pieces = p.contours(&ring, 0.5);
    for q in pieces.iter_mut().flat_map(|piece| &mut piece.pts) {
        *q = p.nudge_inside(*q);
    }
    pieces.iter().fold(false, |any, piece| cutter.cut(p, piece) || any)
}

/// Whether a helix was found and listed.
fn enter(p: &mut Planner) -> bool {
    let Some((center, radius)) = p.find_helix() else { return false };
    p.m.clear_disk(center, radius + p.r);
    p.all_dirty = true;
    p.put(Chunk::Helix { center, radius });
    p.pos = Some(center + v2(radius, 0.0));
    true
}
