//! The proved stock map against the published one, on random grids, points on edges and off the grid, and
//! radii from 0 to beyond the map: results, every cell and the log.
use compare::bits::Bits;
use compare::geom::Lent;
use compare::raster::Stock;
use oracle::error::CamError;
use oracle::generate::Rng;
use oracle::geom::Region;
use oracle::raster::Grid;
use oracle::vec2::{Vec2, v2};
use std::f64::consts::TAU;

/// At least this many calls of each function.
const CALLS: usize = 100_000;

/// The same grid and map on both sides.
fn pair(r: &mut Rng) -> (Stock, Grid) {
    let (nx, ny) = (1 + r.below(24) as usize, 1 + r.below(24) as usize);
    let cell = [1.0, 0.25, 0.1, 0.075, 3.7][r.below(5) as usize];
    let origin = match r.below(3) {
        0 => v2(0.0, 0.0),
        1 => v2(-3.0, 7.5),
        _ => v2(r.range(-50.0, 50.0), r.range(-50.0, 50.0)),
    };
    let mut stock = Stock::new(origin, cell, nx, ny);
    let share = [1.0, 0.5, 0.0, 0.9][r.below(4) as usize];
    let data: Vec<bool> = (0..nx * ny).map(|_| r.chance(share)).collect();
    stock.map = data.iter().map(|&b| b as u8).collect();
    (stock, Grid { origin, cell, nx, ny, data })
}

/// A point on, beside or off the grid: on corners and centres of cells, or anywhere.
fn point(r: &mut Rng, g: &Grid) -> Vec2 {
    let (w, h) = (g.nx as f64, g.ny as f64);
    let at = |r: &mut Rng, o: f64, n: f64| match r.below(4) {
        0 => o + r.below(n as u64 + 2) as f64 * g.cell,
        1 => o + (r.below(n as u64 + 1) as f64 + 0.5) * g.cell,
        2 => o + r.range(-0.5 * n - 1.0, 1.5 * n + 1.0) * g.cell,
        _ => o + r.range(0.0, n) * g.cell,
    };
    v2(at(r, g.origin.x, w), at(r, g.origin.y, h))
}

fn radius(r: &mut Rng, g: &Grid) -> f64 {
    match r.below(6) {
        0 => 0.0,
        1 => g.cell * r.below(8) as f64,
        2 => g.cell * 60.0,
        _ => g.cell * r.range(0.0, 9.0),
    }
}

fn same_map(stock: &Stock, grid: &Grid) {
    let want: Vec<u8> = grid.data.iter().map(|&b| b as u8).collect();
    assert_eq!(stock.map, want);
    assert_eq!(stock.standing(), grid.count());
}

/// `calls` times: a pair, then some checks of it.
fn each(seed: u64, calls: usize, mut check: impl FnMut(&mut Rng, Stock, Grid)) {
    let mut r = Rng(seed);
    for _ in 0..calls {
        let (stock, grid) = pair(&mut r);
        check(&mut r, stock, grid);
    }
}

/// Corners and cell of a grid: fit ones, sides at document 01's limits, and what is no corner or no cell.
fn bounds(r: &mut Rng) -> (Vec2, Vec2, f64) {
    let cell = match r.below(8) {
        0 => [0.0, -0.0, -1.0, f64::NAN, f64::INFINITY][r.below(5) as usize],
        _ => [1.0, 0.25, 0.1, 3.7][r.below(4) as usize],
    };
    let lo = v2(r.range(-50.0, 50.0), r.range(-50.0, 50.0));
    let side = |r: &mut Rng| match r.below(12) {
        0 => 4095.0 + r.below(3) as f64,
        1 => 0.0,
        2 => -r.range(0.0, 3.0),
        _ => r.range(0.0, 30.0),
    };
    let mut hi = v2(lo.x + side(r) * cell, lo.y + side(r) * cell);
    let mut lo = lo;
    if r.below(16) == 0 {
        let odd = [f64::NAN, f64::INFINITY, -f64::INFINITY][r.below(3) as usize];
        match r.below(4) {
            0 => lo.x = odd,
            1 => lo.y = odd,
            2 => hi.x = odd,
            _ => hi.y = odd,
        }
    }
    (lo, hi, cell)
}

#[test]
fn grids() {
    let mut r = Rng(30);
    let mut answers = [0; 3];
    for _ in 0..CALLS / 10 {
        let (lo, hi, cell) = bounds(&mut r);
        let margin = [0.0, 0.5, 2.0][r.below(3) as usize] * cell;
        let want = match Grid::new(lo, hi, cell, margin) {
            Ok(g) if g.nx <= 4096 && g.ny <= 4096 && g.nx * g.ny <= 1_048_576 => Ok(g),
            Ok(_) | Err(CamError::LimitExceeded(_)) => Err(14),
            Err(_) => Err(12),
        };
        let got = compare::raster::new(lo, hi, cell, margin);
        match (got, want) {
            (Ok((o, nx, ny)), Ok(g)) => {
                assert_eq!(
                    (o.x.bits(), o.y.bits(), nx, ny),
                    (g.origin.x.bits(), g.origin.y.bits(), g.nx, g.ny)
                );
                answers[0] += 1;
            }
            (Err(a), Err(b)) => {
                assert_eq!(a, b, "{lo:?} {hi:?} {cell} {margin}");
                answers[if a == 12 { 1 } else { 2 }] += 1;
            }
            (a, b) => panic!("{lo:?} {hi:?} {cell} {margin}: {a:?} {}", b.is_ok()),
        }
    }
    assert!(answers.iter().all(|&n| n > 500), "{answers:?}");
}

#[test]
fn cells_and_centres() {
    each(31, CALLS / 4, |r, stock, grid| {
        for _ in 0..4 {
            let p = point(r, &grid);
            assert_eq!(stock.cell_of(p), grid.cell_of(p), "{p:?} {grid:?}");
            assert_eq!(stock.at(p), grid.at(p), "{p:?} {grid:?}");
            let (i, j) = (r.below(grid.nx as u64) as usize, r.below(grid.ny as u64) as usize);
            let (a, b) = (stock.center(i, j), grid.center(i, j));
            assert_eq!((a.x.bits(), a.y.bits()), (b.x.bits(), b.y.bits()));
        }
        for p in [v2(f64::NAN, 0.0), v2(f64::INFINITY, 0.0), v2(0.0, -f64::INFINITY), v2(-0.0, -0.0)] {
            assert_eq!(stock.cell_of(p), grid.cell_of(p), "{p:?} {grid:?}");
        }
    });
}

#[test]
fn disks() {
    each(32, CALLS / 4, |r, mut stock, mut grid| {
        for _ in 0..4 {
            let (c, rad) = (point(r, &grid), radius(r, &grid));
            let j = r.below(grid.ny as u64) as usize;
            assert_eq!(stock.disk_row(c, rad, j), grid.disk_row(c, rad, j), "{c:?} {rad} {j}");
            let want = grid.count_disk(c, rad);
            assert_eq!(stock.count_disk(c, rad), want, "{c:?} {rad} {grid:?}");
            assert_eq!(stock.plain_count_disk(c, rad), want, "{c:?} {rad} {grid:?}");
            assert_eq!(stock.clear_disk(c, rad), grid.clear_disk(c, rad), "{c:?} {rad}");
            same_map(&stock, &grid);
        }
    });
}

/// Disks far off the map, whose first row no map has, and of special numbers.
#[test]
fn disks_of_any_numbers() {
    const NUMBERS: [f64; 12] =
        [0.0, -0.0, 3.7, -3.7, 4096.0, 1e19, -1e19, 1e300, -1e300, f64::INFINITY, -f64::INFINITY, f64::NAN];
    let drawn = |r: &mut Rng| NUMBERS[r.below(NUMBERS.len() as u64) as usize];
    let (mut none, mut some) = (0, 0);
    each(38, CALLS / 4, |r, mut stock, mut grid| {
        for _ in 0..4 {
            let near = point(r, &grid);
            let c = [v2(drawn(r), near.y), v2(near.x, drawn(r)), v2(drawn(r), drawn(r)), near]
                [r.below(4) as usize];
            let rad = drawn(r);
            let want = grid.count_disk(c, rad);
            if want == 0 {
                none += 1
            } else {
                some += 1
            }
            assert_eq!(stock.count_disk(c, rad), want, "{c:?} {rad} {grid:?}");
            assert_eq!(stock.plain_count_disk(c, rad), want, "{c:?} {rad} {grid:?}");
            assert_eq!(
                stock.clear_disk_after_logged(near, c, rad),
                grid.clear_disk_after(near, c, rad),
                "{near:?} {c:?} {rad}"
            );
            assert_eq!(stock.clear_disk(c, rad), grid.clear_disk(c, rad), "{c:?} {rad}");
            same_map(&stock, &grid);
        }
    });
    assert!(none > 1000 && some > 1000, "{none} {some}");
}

#[test]
fn crescents_their_log_and_undoing() {
    each(33, CALLS / 4, |r, mut stock, mut grid| {
        let first = grid.clone();
        let (mut log, rad) = (Vec::new(), radius(r, &grid));
        let mut prev = point(r, &grid);
        for _ in 0..4 {
            let step = v2(r.range(-2.0, 2.0), r.range(-2.0, 2.0)) * grid.cell;
            let c = if r.chance(0.8) { prev + step } else { point(r, &grid) };
            let n = grid.clear_disk_after_logged(prev, c, rad, &mut log);
            assert_eq!(stock.clear_disk_after_logged(prev, c, rad), n, "{prev:?} {c:?} {rad}");
            same_map(&stock, &grid);
            prev = c;
        }
        let got: Vec<usize> = stock.log[..stock.count].iter().map(|&k| k as usize).collect();
        assert_eq!(got, log);
        assert!(stock.log[stock.count..].iter().all(|&k| k == u32::MAX));
        stock.undo();
        same_map(&stock, &first);
        stock.clear_again();
        same_map(&stock, &grid);
    });
}

#[test]
fn contact() {
    each(34, CALLS / 4, |r, stock, grid| {
        for _ in 0..4 {
            let (c, rad) = (point(r, &grid), radius(r, &grid));
            let samples = [0, 4, 8, 9, 48, 96][r.below(6) as usize];
            let want = grid.engagement_printed(c, rad, samples);
            assert_eq!(stock.engagement(c, rad, samples).bits(), want.bits(), "{c:?} {rad} {samples}");
        }
    });
}

/// Points of the rim, hit and sampled, by the published map's cells; the angle of the two.
#[test]
fn rim_points() {
    each(35, CALLS / 4, |r, stock, grid| {
        let origin = pocket::Point::new(grid.origin.x, grid.origin.y);
        let map = pocket::Map {
            grid: pocket::Grid { origin, cell: grid.cell, nx: grid.nx, ny: grid.ny },
            bytes: stock.map,
        };
        for _ in 0..4 {
            let (c, rad) = (point(r, &grid), radius(r, &grid));
            let samples = [0, 4, 8, 9, 48, 96][r.below(6) as usize];
            let got = map.contact(pocket::Point::new(c.x, c.y), rad, samples).unwrap();
            let n = samples.max(8);
            let direction = |k: usize| Vec2::from_angle(TAU * (k as f64 + 0.5) / n as f64);
            let hits = (0..n).filter(|k| grid.at(c + direction(*k) * rad)).count();
            assert_eq!((got.hits(), got.samples()), (hits, n), "{c:?} {rad} {samples}");
            assert_eq!(got.angle().bits(), grid.engagement_printed(c, rad, samples).bits());
        }
    });
}

/// Loops around, over and off the grid, most of them crossing themselves, with corners on rows and columns of centres;
/// islands that overlap or lie in one another, and now and then one without vertices.
fn region(r: &mut Rng, g: &Grid) -> Region {
    let ring = |r: &mut Rng| (0..3 + r.below(6)).map(|_| point(r, g)).collect::<Vec<_>>();
    let (outer, mut islands) = (ring(r), (0..r.below(3)).map(|_| ring(r)).collect::<Vec<_>>());
    match r.below(4) {
        0 => {
            let around = islands.last().unwrap_or(&outer);
            islands.push(around.iter().map(|p| p.lerp(around[0], 0.4)).collect());
        }
        1 => islands.insert(r.below(islands.len() as u64 + 1) as usize, Vec::new()),
        _ => {}
    }
    Region { outer, islands }
}

/// A fill sets the changed fill's cells, which are the print's where the two agree, and no others.
#[test]
fn regions_filled() {
    let (mut same, mut apart, mut within) = (0, 0, 0);
    each(37, CALLS, |r, mut stock, mut grid| {
        let region = region(r, &grid);
        let empty = Grid { data: vec![false; grid.data.len()], ..grid.clone() };
        let (mut printed, mut changed) = (empty.clone(), empty);
        printed.fill_region_printed(&region, true);
        changed.fill_region_each(&region, true);
        within += (changed.count() > 0) as usize;
        stock.fill_region(&Lent::new(&region, r.below(3) as usize, r.below(3) as usize));
        if printed.data == changed.data {
            same += 1;
            grid.fill_region_printed(&region, true);
        } else {
            apart += 1;
            grid.data.iter_mut().zip(changed.data).for_each(|(cell, set)| *cell |= set);
        }
        same_map(&stock, &grid);
    });
    println!("the fills agree on {same} regions and disagree on {apart}; {within} of all have cells");
    assert!(same > CALLS / 5 && apart > CALLS / 5 && within > CALLS / 2);
}

/// A fill goes by `contains` on every grid, also where a row's centres do not rise from column to column.
#[test]
fn regions_on_strange_grids() {
    let around = |lo: f64, hi: f64| vec![v2(lo, lo), v2(hi, lo), v2(hi, hi), v2(lo, hi)];
    let region = Region { outer: around(-6.0, 6.0), islands: vec![around(-2.0, 1.0), around(0.0, 3.0)] };
    let (places, mut met) = ([0.0, 5.5, -3.0, f64::NAN, f64::INFINITY, f64::NEG_INFINITY], 0);
    for cell in [1.0, -1.0, 0.0, -0.0, 1e-300, f64::MAX, f64::INFINITY, f64::NEG_INFINITY, f64::NAN] {
        for (x, y) in places.into_iter().flat_map(|x| places.map(|y| (x, y))) {
            let mut grid = Grid { origin: v2(x, y), cell, nx: 7, ny: 5, data: vec![false; 35] };
            let mut stock = Stock::new(grid.origin, cell, 7, 5);
            grid.fill_region_each(&region, true);
            stock.fill_region(&Lent::new(&region, 0, 0));
            same_map(&stock, &grid);
            met += (grid.count() > 0) as usize;
        }
    }
    assert!(met > 30, "{met}");
}

#[test]
fn maps_intersected() {
    each(35, CALLS, |r, mut stock, mut grid| {
        let mut other = grid.clone();
        other.data.iter_mut().for_each(|b| *b = r.chance(0.6));
        let bytes: Vec<u8> = other.data.iter().map(|&b| b as u8).collect();
        grid.intersect(&other);
        stock.intersect(&bytes);
        same_map(&stock, &grid);
    });
}

/// Bytes that are neither 0 nor 1 are no stock: they stay, and are neither counted nor logged.
#[test]
fn other_bytes_stay() {
    each(36, 1_000, |r, mut stock, grid| {
        stock.map.iter_mut().for_each(|b| *b += 2 * (r.below(2) as u8));
        let before = stock.map.clone();
        let (c, rad) = (point(r, &grid), radius(r, &grid));
        stock.clear_disk_after_logged(c, point(r, &grid), rad);
        for (k, (&a, &b)) in before.iter().zip(&stock.map).enumerate() {
            assert!(a == b || (a == 1 && b == 0 && stock.log[..stock.count].contains(&(k as u32))));
        }
        stock.undo();
        assert_eq!(stock.map, before);
    });
}
