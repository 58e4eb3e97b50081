//! The numbers that functions are compared on: every special pattern, then random ones of each sort
//! that rounding, casts and comparisons tell apart. Each set makes over a million calls.
use oracle::generate::Rng;
use std::f64::consts::{FRAC_PI_2, FRAC_PI_4, PI, TAU};

/// Random draws in a set.
const DRAWS: usize = 4_000_000;

/// Values at which some function changes its answer, before signs and neighbours.
const SPECIAL: [f64; 40] = [
    0.0,
    f64::MIN_POSITIVE,
    f64::EPSILON,
    0.25,
    0.5,
    1.0,
    1.5,
    2.0,
    2.25,
    2.5,
    3.0,
    4.0,
    45.0,
    57.29577951308232,
    180.0,
    360.0,
    PI,
    TAU,
    f64::MAX,
    f64::INFINITY,
    // Casts to u32 and u64, and where whole numbers and halves cease.
    2147483648.0,
    4294967295.0,
    4294967295.5,
    4294967296.0,
    2251799813685248.0,
    4503599627370495.5,
    4503599627370496.0,
    9007199254740991.0,
    9007199254740992.0,
    9223372036854775808.0,
    18446744073709549568.0,
    18446744073709551616.0,
    // Narrowing: ties, the largest f32 and half a step beyond it, subnormal f32 and half the least.
    1.0 + 1.0 / 16777216.0,
    1.0 + 3.0 / 16777216.0,
    16777217.0,
    f32::MAX as f64,
    3.4028235677973366e38,
    f32::MIN_POSITIVE as f64,
    1.401298464324817e-45,
    7.006492321624085e-46,
];

const NANS: [u64; 4] =
    [0x7ff8_0000_0000_0000, 0xfff8_0000_0000_0000, 0x7ff0_0000_0000_0001, 0xffff_ffff_ffff_ffff];

/// The special values, their neighbours, and all of these negated; then NaNs of either sign.
fn special() -> Vec<f64> {
    let near = SPECIAL.iter().flat_map(|v| [v.next_down(), *v, v.next_up()]);
    near.flat_map(|v| [v, -v]).chain(NANS.map(f64::from_bits)).collect()
}

/// Every power of two with its neighbours, negated too.
fn powers() -> impl Iterator<Item = f64> {
    let subnormal = (0..52).map(|k| f64::from_bits(1 << k));
    let normal = (1..2047).map(|k| f64::from_bits(k << 52));
    subnormal.chain(normal).flat_map(|v| [v.next_down(), v, v.next_up()]).flat_map(|v| [v, -v])
}

/// A few units in the last place away, or not.
fn nudged(mut v: f64, r: &mut Rng) -> f64 {
    for _ in 0..r.below(4) {
        v = if r.chance(0.5) { v.next_up() } else { v.next_down() };
    }
    v
}

/// A whole number of a random length, up to that many bits.
fn whole(r: &mut Rng, bits: u64) -> u64 {
    let word = r.bits();
    word >> (64 - bits + r.below(bits))
}

fn random(r: &mut Rng) -> f64 {
    let v = match r.below(10) {
        0 | 1 => return f64::from_bits(r.bits()),
        2 => f64::from_bits((1023 - 64 + r.below(128)) << 52 | r.bits() >> 12),
        3 => {
            let v = whole(r, 54) as f64 * 0.5;
            nudged(v, r)
        }
        4 => {
            let v = whole(r, 64) as f64;
            nudged(v, r)
        }
        5 => {
            let v = f64::from_bits(r.below(2047) << 52);
            nudged(v, r)
        }
        6 => f64::from_bits(whole(r, 52)),
        7 => {
            let v = r.pick(&SPECIAL);
            nudged(v, r)
        }
        8 => {
            // Midway between two f32.
            let a = f32::from_bits(r.bits() as u32 & 0x7fff_ffff);
            nudged((a as f64 + a.next_up() as f64) * 0.5, r)
        }
        _ => {
            // A square, or its neighbour.
            let v = whole(r, 27) as f64;
            nudged(v * v, r)
        }
    };
    if r.chance(0.5) { -v } else { v }
}

/// Any number.
pub fn any1(mut visit: impl FnMut(f64)) {
    special().into_iter().chain(powers()).for_each(&mut visit);
    let mut r = Rng(1);
    (0..DRAWS).for_each(|_| visit(random(&mut r)));
}

/// Any two: every pair of specials, then random ones, equal and neighbouring ones among them.
pub fn any2(mut visit: impl FnMut(f64, f64)) {
    let all = special();
    for &a in &all {
        all.iter().for_each(|&b| visit(a, b));
    }
    let mut r = Rng(2);
    for _ in 0..DRAWS {
        let a = random(&mut r);
        let b = match r.below(4) {
            0 => nudged(a, &mut r),
            1 => -a,
            _ => random(&mut r),
        };
        visit(a, b);
    }
}

/// Any number and two bounds, neither NaN, the first at most the second: Rust answers for no others.
pub fn bounded(mut visit: impl FnMut(f64, f64, f64)) {
    let mut visit_ordered = |x: f64, a: f64, b: f64| {
        if !a.is_nan() && !b.is_nan() {
            visit(x, if a <= b { a } else { b }, if a <= b { b } else { a });
        }
    };
    let all = special();
    for &x in &all {
        for &a in all.iter().step_by(3) {
            all.iter().step_by(5).for_each(|&b| visit_ordered(x, a, b));
        }
    }
    let mut r = Rng(3);
    for _ in 0..DRAWS {
        let (a, b) = (random(&mut r), random(&mut r));
        let x = match r.below(4) {
            0 => nudged(a, &mut r),
            1 => nudged(b, &mut r),
            _ => random(&mut r),
        };
        visit_ordered(x, a, b);
    }
}

/// Angles from 0 to TAU: the borders of quadrants, those that the planner samples, and random ones.
pub fn angle(mut visit: impl FnMut(f64)) {
    let mut r = Rng(4);
    let mut visit_inside = |a: f64| {
        if (0.0..=TAU).contains(&a) {
            visit(a);
        }
    };
    for q in 0..5 {
        for border in [q as f64 * FRAC_PI_2, (2 * q + 1) as f64 * FRAC_PI_4] {
            visit_inside(border);
            (0..1000).for_each(|_| visit_inside(nudged(border, &mut r)));
        }
    }
    powers().for_each(&mut visit_inside);
    visit_inside(-0.0);
    for n in [16, 36] {
        (0..n).for_each(|k| visit_inside(TAU * k as f64 / n as f64));
    }
    for n in [8, 64, 189, 251, 252, 754, 1000, 2048] {
        (0..n).for_each(|k| visit_inside(TAU * (k as f64 + 0.5) / n as f64));
    }
    (0..DRAWS).for_each(|_| visit_inside(r.range(0.0, TAU)));
}
