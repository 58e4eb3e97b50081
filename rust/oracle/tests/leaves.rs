//! What the oracle adds beside the print: sine and cosine, and two shortcuts with the same answers.
use oracle::circle::{cos, sin};
use oracle::generate::Rng;
use oracle::geom::{Region, SegIndex};
use oracle::raster::Grid;
use oracle::vec2::{Vec2, v2};
use std::f64::consts::TAU;

#[test]
fn sine_and_cosine() {
    assert_eq!(cos(0.0).to_bits(), 1f64.to_bits());
    assert_eq!(sin(0.0).to_bits(), 0f64.to_bits());
    let mut r = Rng(3);
    for k in 0..1_000_000 {
        let a = if k < 10_000 { TAU * k as f64 / 9_999.0 } else { r.range(0.0, TAU) };
        // The first term left out, y^16 / 16! with y up to π/4, is 1e-15; the rest is rounding.
        assert!((cos(a) - a.cos()).abs() < 2e-15, "cosine of {a}");
        assert!((sin(a) - a.sin()).abs() < 2e-15, "sine of {a}");
    }
}

#[test]
fn contact_from_the_table_is_the_printed_one() {
    let mut r = Rng(5);
    for _ in 0..300 {
        let side = r.below(40) as usize + 1;
        let data = (0..side * side).map(|_| r.chance(0.5)).collect();
        let g =
            Grid { origin: v2(r.range(-9.0, 9.0), 1.0), cell: r.range(0.01, 2.0), nx: side, ny: side, data };
        for _ in 0..10 {
            let c = g.origin + v2(r.unit(), r.unit()) * (g.cell * side as f64);
            let (radius, samples) = (r.range(0.0, 30.0) * g.cell, r.below(700) as usize);
            let printed = g.engagement_printed(c, radius, samples);
            assert_eq!(g.engagement(c, radius, samples).to_bits(), printed.to_bits());
        }
    }
}

/// A number a few units in the last place away.
fn nudged(v: f64, r: &mut Rng) -> f64 {
    let mut v = v;
    for _ in 0..r.below(5) {
        v = if r.chance(0.5) { v.next_up() } else { v.next_down() };
    }
    v
}

#[test]
fn skipping_far_walls_changes_no_answer() {
    let mut r = Rng(17);
    let mut near = 0;
    for _ in 0..2000 {
        let keep = r.range(0.05, 20.0);
        let spot = |r: &mut Rng| v2(r.range(-9_900.0, 9_900.0), r.range(-9_900.0, 9_900.0));
        let o = if r.chance(0.5) { Vec2::ZERO } else { spot(&mut r) };
        let corner = |r: &mut Rng| o + v2(r.range(0.0, 8.0), r.range(0.0, 8.0)) * keep;
        let outer: Vec<Vec2> = (0..r.below(6) + 3).map(|_| corner(&mut r)).collect();
        let region = Region { outer: outer.clone(), islands: Vec::new() };
        let walls = SegIndex::new(region.segments(), keep);
        for _ in 0..50 {
            // Points at the very distance from a corner, and points anywhere.
            let v = r.pick(&outer);
            let p = match r.below(3) {
                0 => v2(nudged(v.x - keep, &mut r), v.y),
                1 => v2(v.x, nudged(v.y + keep, &mut r)),
                _ => corner(&mut r),
            };
            let each = walls.any_within_each(p, keep);
            assert_eq!(walls.any_within_boxed(p, keep), each, "keep {keep}, {p:?}, {outer:?}");
            near += each as u32;
        }
    }
    assert!((10_000..90_000).contains(&near), "{near}");
}
