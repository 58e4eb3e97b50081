//! Times the fill of regions: the proved one, the published even-odd one, and the changed rule cell by cell, in one run:
//! `cargo run --release --bin bench_fill`. The regions are those of the larger jobs on their own rasters, and two made ones
//! of about 4,096 vertices over 1,024 by 1,024 cells. Prints a table of docs/PERFORMANCE.md.
use compare::geom::Lent;
use compare::raster::Stock;
use compare::timing::cpu;
use oracle::generate;
use oracle::geom::Region;
use oracle::raster::Grid;
use oracle::vec2::{Vec2, v2};
use std::f64::consts::TAU;
use std::hint::black_box;

const TRIES: usize = 15;

/// The made regions: a cell, and the side that has 1,024 by 1,024 of them with the margin.
const CELL: f64 = 0.05;
const SIDE: f64 = 1018.3 * CELL;

/// A square of 64 vertices with 64 islands of 63 in 8 rows.
fn islands() -> Region {
    let along = |k: usize| SIDE * k as f64 / 16.0;
    let side = |corner: Vec2, way: Vec2| (0..16).map(move |k| corner + way * along(k));
    let outer = [
        side(v2(0.0, 0.0), v2(1.0, 0.0)),
        side(v2(SIDE, 0.0), v2(0.0, 1.0)),
        side(v2(SIDE, SIDE), v2(-1.0, 0.0)),
        side(v2(0.0, SIDE), v2(0.0, -1.0)),
    ];
    let island = |k: usize| {
        let c = v2((k % 8) as f64 + 0.5, (k / 8) as f64 + 0.5) * (SIDE / 8.0);
        (0..63).map(|n| c + Vec2::from_angle(TAU * n as f64 / 63.0) * (0.4 * SIDE / 8.0)).collect()
    };
    Region { outer: outer.into_iter().flatten().collect(), islands: (0..64).map(island).collect() }
}

/// 1,000 teeth that stand a little apart on a base: each row above it crosses 2,000 edges.
fn comb() -> Region {
    let (teeth, pitch) = (1_000, SIDE / 1_000.0);
    let tooth = |k: usize| {
        let (x, base) = (SIDE - k as f64 * pitch, 0.1 * SIDE);
        [v2(x, base), v2(x, SIDE), v2(x - 0.6 * pitch, SIDE), v2(x - 0.6 * pitch, base)]
    };
    let mut outer = vec![v2(0.0, 0.0), v2(SIDE, 0.0)];
    outer.extend((0..teeth).flat_map(tooth));
    Region { outer, islands: Vec::new() }
}

/// The raster of a pocket.
fn raster(pocket: &Region, cell: f64) -> Grid {
    let (lo, hi) = pocket.bounds();
    Grid::new(lo, hi, cell, 2.0 * cell).expect("a raster")
}

/// A name, a region, and an empty map of the raster that it is filled in on.
fn regions() -> Vec<(String, Region, Grid)> {
    let mut all = Vec::new();
    for (name, job) in generate::large() {
        let (pocket, stock) = job.regions();
        let grid = raster(&pocket, job.cell());
        all.push((format!("{name}, pocket"), pocket, grid.clone()));
        for region in stock.into_iter().flatten() {
            all.push((format!("{name}, stock"), region, grid.clone()));
        }
    }
    for (name, region) in [("64 islands", islands()), ("comb", comb())] {
        let grid = raster(&region, CELL);
        assert_eq!((grid.nx, grid.ny), (1024, 1024));
        all.push((name.into(), region, grid));
    }
    all
}

/// The CPU time of a fill, in ms.
fn time(fill: &mut dyn FnMut()) -> f64 {
    let start = cpu();
    fill();
    (cpu() - start) / 1e6
}

fn main() {
    println!(
        "| region | loops | vertices | cells | proved, ms | even-odd as printed, ms | proved / printed | cell by cell, ms |"
    );
    println!("|---|---:|---:|---:|---:|---:|---:|---:|");
    for (name, region, grid) in regions() {
        let lent = Lent::new(&region, 0, 0);
        let mut stock = Stock::new(grid.origin, grid.cell, grid.nx, grid.ny);
        let (mut printed, mut each) = (grid.clone(), grid);
        let slow = time(&mut || each.fill_region_each(black_box(&region), true));
        let mut best = [f64::MAX; 2];
        for _ in 0..TRIES {
            best[0] = best[0].min(time(&mut || stock.fill_region(black_box(&lent))));
            best[1] = best[1].min(time(&mut || printed.fill_region_printed(black_box(&region), true)));
        }
        assert!(stock.map.iter().zip(&each.data).all(|(a, b)| *a == *b as u8), "{name}: another map");
        let [proved, rust] = best;
        let (loops, vertices, cells) = (lent.loops, lent.vs.len() / 2, stock.map.len());
        let share = proved / rust;
        println!(
            "| {name} | {loops} | {vertices} | {cells} | {proved:.3} | {rust:.3} | {share:.2} | {slow:.1} |"
        );
    }
}
