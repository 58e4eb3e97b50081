//! Limits, places and straight links on the planners of generated jobs, some with cuts made in the map.
use compare::bits::Bits;
use compare::planners::{each, point};
use compare::setup;
use oracle::generate::Rng;
use oracle::vec2::v2;

#[test]
fn limits() {
    let mut r = Rng(42);
    for _ in 0..1_000_000 {
        let limit = r.range(1.0, 180.0).to_radians();
        let rad = r.range(0.05, 50.0);
        let cell = rad / r.range(30.0, 500.0);
        // As the Rust writes it.
        let guard = (limit - 2.0 * cell / rad).min(limit * (1.0 - 0.05)).max(0.5 * limit);
        assert_eq!(setup::guard_of(limit, cell, rad).bits(), guard.bits());
        assert_eq!(setup::target_of(guard).bits(), (guard * 0.85).bits());
        let samples = ((4.0 * std::f64::consts::PI * rad / cell).ceil() as usize).clamp(64, 2048);
        assert_eq!(setup::samples_of(rad, cell), samples);
    }
}

#[test]
fn limits_of_planners() {
    each(|_, p, _| {
        assert_eq!(setup::target_of(p.guard).bits(), p.target.bits());
        assert_eq!(setup::samples_of(p.r, p.cell), p.samples);
    });
}

#[test]
fn places() {
    let (mut yes, mut calls) = (0, 0);
    each(|r, p, lent| {
        for _ in 0..3_000 {
            let q = point(r, p);
            let want = p.allowed_at(q);
            assert_eq!(setup::allowed_at(p, lent, q), want, "{q:?}");
            yes += want as usize;
            calls += 1;
        }
    });
    assert!(calls > 100_000 && yes > calls / 20);
}

#[test]
fn straight_links() {
    let (mut yes, mut calls) = (0, 0);
    each(|r, p, lent| {
        let map: Vec<u8> = p.m.data.iter().map(|&b| b as u8).collect();
        let tables = setup::Tables::new(p, 0.0);
        for _ in 0..150 {
            let a = point(r, p);
            // Short ways mostly: long ones are seldom clear.
            let b = match r.below(4) {
                0 => point(r, p),
                1 => a,
                _ => a + v2(r.range(-1.0, 1.0), r.range(-1.0, 1.0)) * p.r,
            };
            let want = p.link_clear(a, b);
            assert_eq!(setup::link_clear(p, lent, &tables, &map, a, b), want, "{a:?} {b:?}");
            yes += want as usize;
            calls += 1;
        }
    });
    assert!(calls > 4_000 && yes > 40, "{yes} of {calls}");
}
