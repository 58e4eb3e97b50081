//! Sine and cosine by document 01 ("Leaves not printed").
use std::f64::consts::{FRAC_PI_2, FRAC_PI_4, TAU};

/// ±1 / n!; the factorials up to 15! are exact.
const fn coefficient(n: u64, negative: bool) -> f64 {
    let mut factorial: u64 = 1;
    let mut k = 2;
    while k <= n {
        factorial *= k;
        k += 1;
    }
    (if negative { -1.0 } else { 1.0 }) / (factorial as f64)
}

const COS: [f64; 8] = [
    coefficient(0, false),
    coefficient(2, true),
    coefficient(4, false),
    coefficient(6, true),
    coefficient(8, false),
    coefficient(10, true),
    coefficient(12, false),
    coefficient(14, true),
];
const SIN: [f64; 8] = [
    coefficient(1, false),
    coefficient(3, true),
    coefficient(5, false),
    coefficient(7, true),
    coefficient(9, false),
    coefficient(11, true),
    coefficient(13, false),
    coefficient(15, true),
];

/// The least q of 0 to 4 with a at most (2q + 1) · π/4, and what is left of a.
fn quadrant(a: f64) -> (u32, f64) {
    debug_assert!((0.0..=TAU).contains(&a), "angle {a} outside 0 to TAU");
    let mut q = 0u32;
    while q < 4 && a > (2 * q + 1) as f64 * FRAC_PI_4 {
        q += 1;
    }
    (q, a - q as f64 * FRAC_PI_2)
}

/// Horner's rule in y².
fn horner(coefficients: &[f64; 8], y: f64) -> f64 {
    let z = y * y;
    let mut sum = coefficients[7];
    for k in (0..7).rev() {
        sum = sum * z + coefficients[k];
    }
    sum
}

/// Cosine and sine of an angle from 0 to TAU.
pub fn cos_sin(a: f64) -> (f64, f64) {
    let (q, y) = quadrant(a);
    let (c, s) = (horner(&COS, y), horner(&SIN, y) * y);
    match q {
        0 | 4 => (c, s),
        1 => (-s, c),
        2 => (-c, -s),
        _ => (s, -c),
    }
}

pub fn cos(a: f64) -> f64 {
    cos_sin(a).0
}

pub fn sin(a: f64) -> f64 {
    cos_sin(a).1
}
