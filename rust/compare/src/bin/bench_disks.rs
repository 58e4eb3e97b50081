//! Times the count of stock under the cutter in both its forms, and the published one, on the same disks in one run:
//! `cargo run --release --bin bench_disks`. The plain form squares the radius and multiplies out the first cell's
//! number in each row; the planner's squares once and steps. Prints a table of docs/PERFORMANCE.md.
use compare::raster::Stock;
use compare::timing::cpu;
use oracle::generate::Rng;
use oracle::raster::Grid;
use oracle::vec2::{Vec2, v2};
use std::hint::black_box;

const SIDE: usize = 1024;
const CELL: f64 = 0.05;
const ORIGIN: Vec2 = Vec2 { x: -3.1, y: 2.7 };
/// In cells.
const RADII: [f64; 9] = [1.0, 2.0, 5.0, 10.0, 20.0, 50.0, 100.0, 200.0, 500.0];
/// The half-cleared map has stripes of so many cells.
const STRIPE: usize = 7;
const DISKS: usize = 64;
const TRIES: usize = 15;
/// Nanoseconds that a try of one side takes at least.
const TRY: f64 = 2e6;

const SIDES: usize = 3;

/// A map on both sides; a cell is stock where `stands` says so of its column and row.
fn maps(stands: impl Fn(usize, usize) -> bool) -> (Stock, Grid) {
    let data: Vec<bool> = (0..SIDE * SIDE).map(|k| stands(k % SIDE, k / SIDE)).collect();
    let mut stock = Stock::new(ORIGIN, CELL, SIDE, SIDE);
    stock.map = data.iter().map(|&b| b as u8).collect();
    (stock, Grid { origin: ORIGIN, cell: CELL, nx: SIDE, ny: SIDE, data })
}

/// A point in cells, on the map's scale.
fn at(x: f64, y: f64) -> Vec2 {
    ORIGIN + v2(x, y) * CELL
}

/// A centre whose disk of so many cells lies on the map.
fn inside(r: &mut Rng, radius: f64) -> Vec2 {
    let (lo, hi) = (radius + 1.0, SIDE as f64 - radius - 1.0);
    at(r.range(lo, hi), r.range(lo, hi))
}

/// A centre on the map's border.
fn on_border(r: &mut Rng) -> Vec2 {
    let side = SIDE as f64;
    let along = r.range(0.0, side);
    [at(along, 0.0), at(along, side), at(0.0, along), at(side, along)][r.below(4) as usize]
}

/// The least nanoseconds a disk of each side, in turn.
fn times(disks: &[(Vec2, f64)], sides: [&dyn Fn(Vec2, f64) -> usize; SIDES]) -> [f64; SIDES] {
    let run = |count: &dyn Fn(Vec2, f64) -> usize, rounds: usize| {
        let start = cpu();
        for _ in 0..rounds {
            for &(c, r) in disks {
                black_box(count(black_box(c), black_box(r)));
            }
        }
        cpu() - start
    };
    let rounds = (TRY / run(sides[0], 1)).ceil().max(1.0) as usize;
    let mut best = [f64::MAX; SIDES];
    for _ in 0..TRIES {
        for (count, best) in sides.iter().zip(&mut best) {
            *best = best.min(run(count, rounds));
        }
    }
    best.map(|t| t / (rounds * disks.len()) as f64)
}

fn main() {
    let cases = [
        ("full", maps(|_, _| true)),
        ("half-cleared", maps(|i, j| (i + j) / STRIPE % 2 == 0)),
        ("empty", maps(|_, _| false)),
    ];
    println!(
        "| radius, cells | map | plain, ns | stepped, ns | stepped / plain | Rust, ns | over the edges: plain, ns | stepped, ns | stepped / plain | Rust, ns |"
    );
    println!("|---:|---|---:|---:|---:|---:|---:|---:|---:|---:|");
    let (mut shares, mut count) = (0.0, 0);
    for radius in RADII {
        for (name, (stock, grid)) in &cases {
            let mut r = Rng(radius as u64);
            let mut line = format!("| {radius} | {name} |");
            for over in [false, true] {
                let disks: Vec<(Vec2, f64)> = (0..DISKS)
                    .map(|_| (if over { on_border(&mut r) } else { inside(&mut r, radius) }, radius * CELL))
                    .collect();
                for &(c, rad) in &disks {
                    let want = grid.count_disk(c, rad);
                    assert_eq!((stock.count_disk(c, rad), stock.plain_count_disk(c, rad)), (want, want));
                }
                let [plain, stepped, rust] = times(
                    &disks,
                    [&|c, r| stock.plain_count_disk(c, r), &|c, r| stock.count_disk(c, r), &|c, r| {
                        grid.count_disk(c, r)
                    }],
                );
                let share = stepped / plain;
                shares += share.ln();
                count += 1;
                line += &format!(" {plain:.0} | {stepped:.0} | {share:.2} | {rust:.0} |");
            }
            println!("{line}");
        }
    }
    println!("\nstepped / plain on the mean: {:.3}", (shares / count as f64).exp());
}
