//! The proved geometry against the published one, on random regions and points, many of them exactly on
//! vertices, edges and their rows.
use compare::bits::Bits;
use compare::geom::{self, Lent};
use oracle::generate::Rng;
use oracle::geom::{Region, SegIndex, point_in_loop, seg_distance};
use oracle::vec2::{Vec2, v2};

const CALLS: usize = 120_000;

/// A coordinate: on a coarse lattice, so that points meet vertices and rows, or anywhere.
fn coordinate(r: &mut Rng) -> f64 {
    match r.below(8) {
        0 => -0.0,
        1..4 => r.below(9) as f64 - 4.0,
        4..6 => (r.below(65) as f64 - 32.0) / 8.0,
        _ => (r.below(1 << 53) as f64 / (1u64 << 53) as f64 - 0.5) * 12.0,
    }
}

fn point(r: &mut Rng) -> Vec2 {
    v2(coordinate(r), coordinate(r))
}

fn ring(r: &mut Rng) -> Vec<Vec2> {
    let n = 3 + r.below(7) as usize;
    let mut pts: Vec<Vec2> = (0..n).map(|_| point(r)).collect();
    if r.below(6) == 0 {
        pts[n - 1] = pts[0];
    }
    pts
}

fn region(r: &mut Rng) -> Region {
    let outer = ring(r);
    let islands = (0..r.below(4)).map(|_| ring(r)).collect();
    Region { outer, islands }
}

/// A point of some sort: a vertex, the middle of an edge, or any.
fn near(r: &mut Rng, g: &Region) -> Vec2 {
    let segs = g.segments();
    let (a, b) = segs[r.below(segs.len() as u64) as usize];
    match r.below(4) {
        0 => a,
        1 => a.lerp(b, 0.5),
        2 => v2(coordinate(r), a.y),
        _ => point(r),
    }
}

fn lent(r: &mut Rng, g: &Region) -> Lent {
    let (at, first) = (r.below(3) as usize, r.below(3) as usize);
    Lent::new(g, at, first)
}

fn same(a: Vec2, b: Vec2) {
    assert_eq!((a.x.bits(), a.y.bits()), (b.x.bits(), b.y.bits()), "{a:?}, not {b:?}");
}

#[test]
fn vectors() {
    let mut r = Rng(21);
    for _ in 0..CALLS {
        let (a, b, t) = (point(&mut r), point(&mut r), coordinate(&mut r));
        same(geom::lerp(a, b, t), a.lerp(b, t));
        same(geom::normalized(a), a.normalized());
        same(geom::perp(a), a.perp());
        assert_eq!(geom::dot(a, b).bits(), a.dot(b).bits());
        assert_eq!(geom::cross(a, b).bits(), a.cross(b).bits());
        assert_eq!(geom::length(a).bits(), a.length().bits());
        assert_eq!(geom::distance(a, b).bits(), a.distance(b).bits());
        let turn = r.below(1 << 53) as f64 / (1u64 << 53) as f64 * std::f64::consts::TAU;
        same(geom::from_angle(turn), Vec2::from_angle(turn));
    }
}

#[test]
fn distances_from_segments() {
    let mut r = Rng(22);
    for _ in 0..CALLS {
        let (p, a) = (point(&mut r), point(&mut r));
        let b = match r.below(5) {
            0 => a,
            1 => v2(a.x + 1e-13, a.y),
            _ => point(&mut r),
        };
        assert_eq!(geom::seg_distance(p, a, b).bits(), seg_distance(p, a, b).bits());
    }
}

#[test]
fn points_in_loops_and_regions() {
    let mut r = Rng(23);
    for _ in 0..CALLS {
        let g = region(&mut r);
        let (l, p) = (lent(&mut r, &g), near(&mut r, &g));
        let n = g.outer.len();
        assert_eq!(l.point_in_loop(l.at, n, p), point_in_loop(p, &g.outer), "{p:?} {g:?}");
        assert_eq!(l.contains(p), g.contains(p), "{p:?} {g:?}");
    }
}

#[test]
fn empty_loop_has_no_inside() {
    let g = region(&mut Rng(1));
    assert!(!Lent::new(&g, 0, 0).point_in_loop(0, 0, v2(0.0, 0.0)));
}

#[test]
fn corners() {
    let mut r = Rng(24);
    for _ in 0..CALLS {
        let g = region(&mut r);
        let (lo, hi) = lent(&mut r, &g).bounds();
        let want = g.bounds();
        // Of two zeros Rust's least and largest may be either.
        let level = |a: Vec2, b: Vec2| assert!(a == b, "{a:?}, not {b:?}");
        level(lo, want.0);
        level(hi, want.1);
    }
}

#[test]
fn boundaries_within_a_radius() {
    let mut r = Rng(25);
    let mut yes = 0;
    for call in 0..CALLS {
        let g = region(&mut r);
        let (l, p) = (lent(&mut r, &g), near(&mut r, &g));
        let walls = SegIndex::new(g.segments(), 1.0);
        // Radii of every size, and the very distance of a segment and its neighbours.
        let (a, b) = g.segments()[0];
        let d = seg_distance(p, a, b);
        let radius = match call % 7 {
            0 => d,
            1 => d.next_up(),
            2 => d.next_down(),
            3 => [0.0, -1.0, f64::NAN, f64::INFINITY, 1e-200, 1e200, -0.0][r.below(7) as usize],
            _ => coordinate(&mut r).abs() / 4.0,
        };
        let want = walls.any_within_each(p, radius);
        yes += want as usize;
        assert_eq!(l.any_within(p, radius), want, "{p:?} {radius} {g:?}");
    }
    assert!(yes > CALLS / 10 && yes < CALLS - CALLS / 10);
}
