//! Times the proved distance map beside the published one, in one run: `cargo run --release --bin
//! bench_distance`. The squares have to take at most half of the published time on every map.
use compare::distance::{distances, transform};
use oracle::generate::Rng;
use oracle::raster::distance_transform;
use std::hint::black_box;
use std::time::Instant;

/// The least of several times, in ms, of each of three jobs in turn.
fn times(rounds: usize, mut jobs: [&mut dyn FnMut(); 3]) -> [f64; 3] {
    let mut best = [f64::MAX; 3];
    for _ in 0..rounds {
        for (job, best) in jobs.iter_mut().zip(&mut best) {
            let start = Instant::now();
            job();
            *best = best.min(start.elapsed().as_secs_f64() * 1e3);
        }
    }
    best
}

fn maps(r: &mut Rng, nx: usize, ny: usize) -> Vec<(&'static str, Vec<bool>)> {
    let n = nx * ny;
    let mut one_in = |d: u64| (0..n).map(|_| r.below(d) == 0).collect::<Vec<bool>>();
    let edge = |k: usize| (k % nx).min(k / nx).min(nx - 1 - k % nx).min(ny - 1 - k / nx);
    let middle = |k: usize| {
        let (x, y) = ((k % nx) as f64 - nx as f64 / 2.0, (k / nx) as f64 - ny as f64 / 2.0);
        (x * x + y * y).sqrt()
    };
    vec![
        ("none", vec![false; n]),
        ("one", (0..n).map(|k| k == n / 3).collect()),
        ("1 in 10000", one_in(10000)),
        ("1 in 1000", one_in(1000)),
        ("1 in 100", one_in(100)),
        ("1 in 10", one_in(10)),
        ("half", one_in(2)),
        ("frame", (0..n).map(|k| edge(k) < 40).collect()),
        ("block", (0..n).map(|k| edge(k) >= 40).collect()),
        ("disk", (0..n).map(|k| middle(k) < nx.min(ny) as f64 / 3.0).collect()),
        ("all", vec![true; n]),
    ]
}

fn main() {
    let mut r = Rng(1);
    let (mut worst, mut sum, mut count) = (0.0f64, 0.0, 0);
    println!("map, published ms, squares ms and share, with roots ms and share");
    for (nx, ny) in [(1024, 1024), (4096, 256), (256, 4096)] {
        let n = nx * ny;
        for (name, marks) in maps(&mut r, nx, ny) {
            let bytes: Vec<u8> = marks.iter().map(|&m| m as u8).collect();
            let mut work = vec![0u32; n + 3 * nx];
            let mut whole = work.clone();
            let mut out = vec![0f64; n];
            let best = times(
                15,
                [
                    &mut || {
                        black_box(distance_transform(black_box(&marks), nx, ny));
                    },
                    &mut || {
                        transform(black_box(&bytes), 1, nx, ny, &mut work);
                        black_box(&work);
                    },
                    &mut || {
                        transform(black_box(&bytes), 1, nx, ny, &mut whole);
                        distances(&whole, n, &mut out);
                        black_box(&out);
                    },
                ],
            );
            let want = distance_transform(&marks, nx, ny);
            assert!(out.iter().zip(&want).all(|(a, b)| a.to_bits() == b.to_bits()), "{name}");
            let share = best[1] / best[0];
            worst = worst.max(share);
            sum += share;
            count += 1;
            println!(
                "{nx:4} by {ny:4} {name:10} {:7.2} {:7.2} {share:5.2} {:7.2} {:5.2}",
                best[0],
                best[1],
                best[2],
                best[2] / best[0]
            );
        }
    }
    println!("squares: {worst:.2} of the published time at worst, {:.2} on the mean", sum / count as f64);
    assert!(worst <= 0.5, "squares take more than half of the published time");
}
