//! The functions of the layer `numbers`, one a line: C name, arguments, result, the inputs it is
//! compared on (see `inputs`) and what Rust or the oracle answers. A new function is a new line.
//!
//! Where `numbers` has decided for itself: of two zeros, of which Rust leaves open which is the
//! greater, it takes the first; and it knows one NaN, where `total_cmp` tells them apart by sign and
//! payload (see `bits::order`).

#[macro_export]
macro_rules! numbers {
    ($each:ident) => {
        $each! {
            numbers_sat_u64(x: f64) -> u64, any1, x as u64;
            numbers_sat_u32(x: f64) -> u32, any1, x as u32;
            numbers_max(a: f64, b: f64) -> f64, any2, if a == b { a } else { a.max(b) };
            numbers_min(a: f64, b: f64) -> f64, any2, if a == b { a } else { a.min(b) };
            numbers_clamp(x: f64, lo: f64, hi: f64) -> f64, bounded, x.clamp(lo, hi);
            numbers_abs(x: f64) -> f64, any1, x.abs();
            numbers_is_finite(x: f64) -> bool, any1, x.is_finite();
            numbers_floor(x: f64) -> f64, any1, x.floor();
            numbers_ceil(x: f64) -> f64, any1, x.ceil();
            numbers_round(x: f64) -> f64, any1, x.round();
            numbers_narrow(x: f64) -> f32, any1, x as f32;
            numbers_sqrt(x: f64) -> f64, any1, x.sqrt();
            numbers_cos(a: f64) -> f64, angle, oracle::circle::cos(a);
            numbers_sin(a: f64) -> f64, angle, oracle::circle::sin(a);
            numbers_to_radians(x: f64) -> f64, any1, x.to_radians();
            numbers_to_degrees(x: f64) -> f64, any1, x.to_degrees();
            numbers_total_cmp(a: f64, b: f64) -> u32, any2, $crate::bits::order(a, b);
        }
    };
}
