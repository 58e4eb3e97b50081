//! Bounds on distances, compared by squares: the same answers as from the rounded roots.
use compare::distance::{beyond, limit, within};
use oracle::generate::Rng;

fn length(scaled: bool, scale: f64, square: u32) -> f64 {
    let d = if square == u32::MAX { f64::INFINITY } else { (square as f64).sqrt() };
    if scaled { d * scale } else { d }
}

fn check(scaled: bool, scale: f64, x: f64, square: u32) {
    let v = length(scaled, scale, square);
    assert_eq!(within(scaled, scale, true, x, square), v < x, "{v} < {x}, square {square}");
    assert_eq!(within(scaled, scale, false, x, square), v <= x, "{v} <= {x}, square {square}");
    assert_eq!(beyond(scaled, scale, x, square), v > x, "{v} > {x}, square {square}");
}

/// The bound itself, and its neighbours.
fn near(x: f64) -> [f64; 3] {
    [x.next_down(), x, x.next_up()]
}

#[test]
fn ties_and_neighbours() {
    let mut r = Rng(3);
    for _ in 0..20_000 {
        let square = (r.unit() * r.unit() * 33_000_000.0) as u32;
        let scaled = r.chance(0.5);
        let scale = 0.001 + r.unit() * 2.0;
        for x in near(length(scaled, scale, square)) {
            for k in [0, square.saturating_sub(1), square, square + 1, 33_538_050, u32::MAX] {
                check(scaled, scale, x, k);
            }
        }
    }
}

#[test]
fn bounds_of_planning_are_told() {
    let mut r = Rng(4);
    for _ in 0..20_000 {
        let scale = 0.0005 + r.unit() * 0.5;
        let x = r.unit() * scale * 4000.0;
        for strict in [false, true] {
            assert!(limit(true, scale, strict, x) < u32::MAX, "{x} at {scale}");
            assert!(limit(false, scale, strict, x / scale) < u32::MAX, "{x} at {scale}");
            assert_eq!(limit(true, scale, strict, -x - 1e-9), 0);
        }
    }
}

#[test]
fn odd_bounds() {
    let odd = [
        f64::NAN,
        f64::INFINITY,
        f64::NEG_INFINITY,
        0.0,
        -0.0,
        5e-324,
        -5e-324,
        f64::MAX,
        f64::MIN,
        -1.0,
        1.0,
    ];
    for scaled in [false, true] {
        for scale in odd {
            for x in odd {
                for square in [0, 1, 2, 33_538_050, u32::MAX] {
                    check(scaled, scale, x, square);
                }
            }
        }
    }
}
