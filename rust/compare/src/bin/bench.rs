//! Times each proved function beside Rust's in one run: nanoseconds of CPU a call, best of several.
//! Rust's stands twice: called over the C interface as the proved one is, and inline.
use compare::bits::Bits;
use compare::timing::cpu;
use compare::{ffi, numbers};
use oracle::generate::Rng;
use std::f64::consts::TAU;
use std::hint::black_box;

/// Few enough to stay in the nearest cache.
const VALUES: usize = 2048;
const ROUNDS: usize = 1000;
const TRIES: usize = 9;

/// Nanoseconds a call.
fn time<T: Copy>(values: &[T], f: impl Fn(T) -> u64) -> f64 {
    let mut best = f64::INFINITY;
    for _ in 0..TRIES {
        let start = cpu();
        for _ in 0..ROUNDS {
            for &v in values {
                black_box(f(black_box(v)));
            }
        }
        best = best.min(cpu() - start);
    }
    best / (values.len() * ROUNDS) as f64
}

fn line(name: &str, proved: f64, called: f64, inline: f64) {
    let (by_call, by_inline) = (proved / called, proved / inline);
    println!("{name:20} {proved:8.2} {called:8.2} {by_call:8.2} {inline:8.2} {by_inline:8.2}");
}

/// What functions with these inputs are timed on.
fn any1(r: &mut Rng) -> f64 {
    r.range(0.0, 1000.0)
}

fn any2(r: &mut Rng) -> (f64, f64) {
    (any1(r), any1(r))
}

fn bounded(r: &mut Rng) -> (f64, f64, f64) {
    (any1(r), 250.0, 750.0)
}

fn angle(r: &mut Rng) -> f64 {
    r.range(0.0, TAU)
}

fn draw<T>(sort: fn(&mut Rng) -> T) -> Vec<T> {
    let mut r = Rng(9);
    (0..VALUES).map(|_| sort(&mut r)).collect()
}

macro_rules! time_each {
    ($($name:ident($($arg:ident: $type:ty),*) -> $result:ty, $inputs:ident, $rust:expr;)*) => {$(
        {
            #[inline(never)]
            extern "C" fn called($($arg: $type),*) -> $result {
                $rust
            }
            let values = draw($inputs);
            line(
                stringify!($name),
                time(&values, |($($arg),*)| ffi::$name($($arg),*).bits()),
                time(&values, |($($arg),*)| called($($arg),*).bits()),
                time(&values, |($($arg),*)| { let inline: $result = $rust; inline.bits() }),
            );
        }
    )*};
}

// One argument stands in parentheses as several do.
#[allow(unused_parens)]
fn main() {
    let heads = ["proved", "called", "ratio", "inline", "ratio"].map(|h| format!("{h:>8}"));
    println!("{:20} {}", "ns a call", heads.join(" "));
    println!("{:20} {:8.2}", "(the empty loop)", time(&draw(any1), |x| x.to_bits()));
    numbers!(time_each);
    println!("beside f64::cos and f64::sin, which are other functions:");
    time_each! {
        numbers_cos(a: f64) -> f64, angle, a.cos();
        numbers_sin(a: f64) -> f64, angle, a.sin();
    }
}
