//! Writes the oracle's answers on maps, one call a line, for the program `vectors_maps` to replay where there is no
//! Rust: a word, its arguments and the answer, each number in hexadecimal digits, a float its bits, any NaN the same
//! one. They are the published planner's; of a fill, those of the changed one. A map is made from a seed, and an answer
//! that is a map, a log or a list is a fingerprint; crates/vectors_maps/README.md has both formulas.
use compare::bits::Bits;
use compare::prints::{fingerprint, mix};
use oracle::generate::Rng;
use oracle::geom::Region;
use oracle::raster::{Grid, distance_transform};
use oracle::vec2::{Vec2, v2};

fn fingerprint_of_map(grid: &Grid) -> u64 {
    fingerprint(grid.data.iter().map(|&stock| stock as u64))
}

/// A map by its seed, and its grid.
#[derive(Clone)]
struct Map {
    seed: u64,
    share: u64,
    grid: Grid,
}

impl Map {
    fn new(seed: u64, share: u64, nx: usize, ny: usize, origin: Vec2, cell: f64) -> Map {
        let mut x = seed;
        let stock = |_| {
            x = mix(x, 0);
            x % 256 < share
        };
        let data = (0..nx * ny).map(stock).collect();
        Map { seed, share, grid: Grid { origin, cell, nx, ny, data } }
    }

    fn words(&self) -> Vec<u64> {
        vec![self.seed, self.share, self.grid.nx as u64, self.grid.ny as u64]
    }

    fn words_with_grid(&self) -> Vec<u64> {
        let mut words = self.words();
        words.extend([self.grid.origin.x.bits(), self.grid.origin.y.bits(), self.grid.cell.bits()]);
        words
    }

    /// A point by columns and rows from the corner: whole numbers are corners of cells, halves centres.
    fn at(&self, i: f64, j: f64) -> Vec2 {
        v2(self.grid.origin.x + i * self.grid.cell, self.grid.origin.y + j * self.grid.cell)
    }
}

fn line(word: &str, numbers: Vec<u64>) -> String {
    let words: Vec<String> = numbers.iter().map(|n| format!("{n:x}")).collect();
    format!("{word} {}", words.join(" "))
}

fn crescent(map: &Map, from: Vec2, to: Vec2, r: f64) -> String {
    let (mut grid, mut log) = (map.grid.clone(), Vec::new());
    let n = grid.clear_disk_after_logged(from, to, r, &mut log);
    let cells = fingerprint(log.iter().map(|&k| k as u64));
    let after = fingerprint_of_map(&grid);
    log.iter().for_each(|&k| grid.data[k] = true);
    assert_eq!(grid.data, map.grid.data);
    let mut words = map.words_with_grid();
    words.extend([from.x, from.y, to.x, to.y, r].map(Bits::bits));
    words.extend([n as u64, cells, after, fingerprint_of_map(&grid)]);
    line("crescent", words)
}

/// An outer loop and up to two islands, by the changed fill.
fn fill(map: &Map, region: &Region) -> String {
    let mut grid = map.grid.clone();
    assert!(grid.cell > 0.0);
    grid.fill_region_each(region, true);
    let none = Vec::new();
    let loops =
        [Some(&region.outer), region.islands.first(), region.islands.get(1)].map(|l| l.unwrap_or(&none));
    assert!(region.islands.len() <= 2 && loops.iter().map(|l| l.len()).sum::<usize>() <= 24);
    let mut words = map.words_with_grid();
    words.extend(loops.iter().map(|l| l.len() as u64));
    words.extend(loops.iter().flat_map(|l| l.iter()).flat_map(|p| [p.x.bits(), p.y.bits()]));
    words.extend([grid.count() as u64, fingerprint_of_map(&grid)]);
    line("fill", words)
}

fn contact(map: &Map, c: Vec2, r: f64, samples: usize) -> String {
    let mut words = map.words_with_grid();
    words.extend([c.x, c.y, r].map(Bits::bits));
    words.extend([samples as u64, map.grid.engagement_printed(c, r, samples).bits()]);
    line("contact", words)
}

/// The published distances are rounded roots of whole numbers below 2048, which squaring gives back.
fn square(distance: f64) -> u64 {
    if distance.is_finite() { (distance * distance).round() as u64 } else { u32::MAX as u64 }
}

fn squares(map: &Map) -> String {
    let distances = distance_transform(&map.grid.data, map.grid.nx, map.grid.ny);
    let mut words = map.words();
    words.push(fingerprint(distances.iter().map(|&d| square(d))));
    words.push(fingerprint(distances.iter().map(|&d| d.bits())));
    line("squares", words)
}

fn any_map(r: &mut Rng) -> Map {
    let share = r.pick(&[256, 128, 0, 230, 192]);
    let (nx, ny) = (1 + r.below(32) as usize, 1 + r.below(32) as usize);
    let origin = match r.below(3) {
        0 => v2(0.0, 0.0),
        1 => v2(-3.0, 7.5),
        _ => v2(r.range(-50.0, 50.0), r.range(-50.0, 50.0)),
    };
    Map::new(r.below(1 << 40), share, nx, ny, origin, r.pick(&[1.0, 0.25, 0.1, 0.075, 3.7]))
}

/// On, beside or off the grid: on corners and centres of cells, or anywhere.
fn any_point(r: &mut Rng, map: &Map) -> Vec2 {
    let at = |r: &mut Rng, n: usize| match r.below(4) {
        0 => r.below(n as u64 + 2) as f64,
        1 => r.below(n as u64 + 1) as f64 + 0.5,
        2 => r.range(-0.5 * n as f64 - 1.0, 1.5 * n as f64 + 1.0),
        _ => r.range(0.0, n as f64),
    };
    let (i, j) = (at(r, map.grid.nx), at(r, map.grid.ny));
    map.at(i, j)
}

fn any_radius(r: &mut Rng, map: &Map) -> f64 {
    map.grid.cell
        * match r.below(6) {
            0 => 0.0,
            1 => r.below(8) as f64,
            2 => 60.0,
            _ => r.range(0.0, 9.0),
        }
}

/// Maps of the least and the greatest sides, without stock, half of it, and all stock.
fn plain_maps() -> Vec<Map> {
    let sides = [(1, 1), (1, 32), (32, 1), (32, 32)];
    let shares = [0, 128, 256];
    let each = |(nx, ny)| shares.map(|share| Map::new(7 + share, share, nx, ny, v2(0.0, 0.0), 1.0));
    sides.into_iter().flat_map(each).collect()
}

/// The corners, the middles of the edges and the middle of a map, in columns and rows.
fn places(map: &Map) -> Vec<(f64, f64)> {
    let (w, h) = (map.grid.nx as f64, map.grid.ny as f64);
    let rows = [0.0, h / 2.0, h];
    [0.0, w / 2.0, w].into_iter().flat_map(|i| rows.map(|j| (i, j))).collect()
}

fn crescents() -> Vec<String> {
    let mut r = Rng(41);
    let mut lines = Vec::new();
    for _ in 0..20 {
        let map = any_map(&mut r);
        let from = any_point(&mut r, &map);
        let step = v2(r.range(-2.0, 2.0), r.range(-2.0, 2.0)) * map.grid.cell;
        let to = if r.chance(0.8) { from + step } else { any_point(&mut r, &map) };
        lines.push(crescent(&map, from, to, any_radius(&mut r, &map)));
    }
    let map = Map::new(11, 200, 12, 9, v2(-3.0, 7.5), 0.25);
    for (i, j) in places(&map) {
        // Over the edges, then on corners of cells and on centres, with centres exactly on the rim.
        lines.push(crescent(&map, map.at(i - 1.2, j - 0.7), map.at(i, j), 3.4 * map.grid.cell));
        lines.push(crescent(&map, map.at(i, j), map.at(i + 1.0, j), 2.0 * map.grid.cell));
        lines.push(crescent(&map, map.at(i + 0.5, j + 0.5), map.at(i + 0.5, j + 1.5), 2.0 * map.grid.cell));
    }
    for (i, j) in [(5.5, 4.5), (5.0, 4.0), (5.3, 4.1)] {
        // Of radius 0, and a point to itself.
        lines.push(crescent(&map, map.at(i - 1.0, j), map.at(i, j), 0.0));
        lines.push(crescent(&map, map.at(i, j), map.at(i, j), 2.5 * map.grid.cell));
    }
    for map in plain_maps() {
        lines.push(crescent(&map, map.at(-9.0, 0.0), map.at(0.5, 0.5), 4.5));
    }
    for odd in [f64::NAN, f64::INFINITY, -f64::INFINITY] {
        lines.push(crescent(&map, map.at(2.0, 2.0), v2(odd, map.grid.origin.y), 1.0));
    }
    lines
}

fn ring(map: &Map, points: &[(f64, f64)]) -> Vec<Vec2> {
    points.iter().map(|&(i, j)| map.at(i, j)).collect()
}

fn rect(map: &Map, i0: f64, j0: f64, i1: f64, j1: f64) -> Vec<Vec2> {
    ring(map, &[(i0, j0), (i1, j0), (i1, j1), (i0, j1)])
}

fn fills() -> Vec<String> {
    let mut r = Rng(42);
    let mut lines = Vec::new();
    for _ in 0..24 {
        let map = any_map(&mut r);
        let ring = |r: &mut Rng| (0..3 + r.below(6)).map(|_| any_point(r, &map)).collect::<Vec<_>>();
        let region = Region { outer: ring(&mut r), islands: (0..r.below(3)).map(|_| ring(&mut r)).collect() };
        lines.push(fill(&map, &region));
    }
    for share in [0, 64] {
        let map = Map::new(13, share, 20, 16, v2(-3.0, 7.5), 0.25);
        let outer = rect(&map, 1.2, 1.3, 18.7, 14.6);
        let one = rect(&map, 4.0, 4.0, 9.0, 9.0);
        let two = rect(&map, 7.3, 6.5, 14.2, 12.5);
        let apart = ring(&map, &[(11.0, 2.0), (16.0, 2.2), (13.1, 6.0)]);
        // No island, one, two apart, two that overlap, one that is reversed, one that lies outside.
        let back: Vec<Vec2> = one.iter().rev().copied().collect();
        let outside = rect(&map, 17.0, 13.0, 25.0, 20.0);
        for islands in [
            vec![],
            vec![one.clone()],
            vec![one.clone(), apart],
            vec![one.clone(), two],
            vec![back],
            vec![one, outside],
        ] {
            lines.push(fill(&map, &Region { outer: outer.clone(), islands }));
        }
        // Edges on rows and columns of centres, on edges of cells, and over the grid's edges.
        let crossed = ring(&map, &[(1.0, 1.0), (15.0, 12.0), (15.0, 1.0), (1.0, 12.0)]);
        let on_row = ring(&map, &[(2.0, 3.5), (9.0, 3.5), (17.0, 3.5), (12.0, 11.5), (5.0, 11.5)]);
        for outer in [
            rect(&map, 2.5, 3.5, 12.5, 10.5),
            rect(&map, 2.0, 3.5, 12.0, 10.5),
            rect(&map, 2.5, 3.0, 12.5, 10.0),
            rect(&map, 2.0, 3.0, 12.0, 10.0),
            rect(&map, -5.0, -5.0, 40.0, 40.0),
            rect(&map, -5.0, 3.5, 40.0, 40.0),
            on_row,
            crossed,
            ring(&map, &[(3.5, 3.5), (8.5, 8.5)]),
            ring(&map, &[(3.5, 3.5)]),
        ] {
            lines.push(fill(&map, &Region { outer, islands: vec![] }));
        }
    }
    lines
}

fn contacts() -> Vec<String> {
    let mut r = Rng(43);
    let mut lines = Vec::new();
    for _ in 0..24 {
        let map = any_map(&mut r);
        let (c, radius) = (any_point(&mut r, &map), any_radius(&mut r, &map));
        lines.push(contact(&map, c, radius, r.pick(&[0, 4, 8, 9, 48, 64])));
    }
    let map = Map::new(17, 128, 12, 9, v2(-3.0, 7.5), 0.25);
    for (k, (i, j)) in places(&map).into_iter().enumerate() {
        // On corners of cells, on centres, beside them; the rim over the edges.
        let samples = [4, 8, 64][k % 3];
        lines.push(contact(&map, map.at(i, j), 3.0 * map.grid.cell, samples));
        lines.push(contact(&map, map.at(i + 0.5, j + 0.5), 2.0 * map.grid.cell, samples));
    }
    for samples in [4, 8, 64] {
        lines.push(contact(&map, map.at(5.5, 4.5), 0.0, samples));
        lines.push(contact(&map, map.at(5.0, 4.0), 0.0, samples));
    }
    for map in plain_maps() {
        lines.push(contact(&map, map.at(0.5, 0.5), 3.0, 64));
    }
    lines.push(contact(&map, v2(f64::NAN, map.grid.origin.y), 1.0, 8));
    lines
}

/// The first map from a seed on with so many marks.
fn marked(seed: u64, share: u64, nx: usize, ny: usize, marks: usize) -> Map {
    let maps = (seed..).map(|seed| Map::new(seed, share, nx, ny, v2(0.0, 0.0), 1.0));
    maps.into_iter().find(|map| map.grid.count() == marks).expect("no such map")
}

fn distances() -> Vec<String> {
    let mut r = Rng(44);
    let mut lines = Vec::new();
    for _ in 0..24 {
        let mut map = any_map(&mut r);
        let share = r.pick(&[1, 3, 20, 128, 250]);
        map = Map::new(map.seed, share, map.grid.nx, map.grid.ny, map.grid.origin, map.grid.cell);
        lines.push(squares(&map));
    }
    lines.extend(plain_maps().iter().map(squares));
    for (nx, ny) in [(1, 32), (32, 1), (5, 7), (13, 13), (32, 32), (31, 8)] {
        // One mark, two, all but one.
        lines.push(squares(&marked(1000, 2, nx, ny, 1)));
        lines.push(squares(&marked(2000, 2, nx, ny, 1)));
        lines.push(squares(&marked(3000, 3, nx, ny, 2)));
        lines.push(squares(&marked(4000, 254, nx, ny, nx * ny - 1)));
    }
    lines
}

/// A line with one of its last numbers changed.
fn changed(line: &str, back: usize) -> String {
    let mut words: Vec<String> = line.split(' ').map(String::from).collect();
    let k = words.len() - 1 - back;
    words[k] = format!("{:x}", u64::from_str_radix(&words[k], 16).expect("a number") + 1);
    words.join(" ")
}

/// A line with another word at a place.
fn with(line: &str, place: usize, word: &str) -> String {
    let mut words: Vec<&str> = line.split(' ').collect();
    words[place] = word;
    words.join(" ")
}

/// Lines that the program has to name.
fn write_unfit() {
    let map = Map::new(5, 200, 6, 5, v2(0.0, 0.0), 1.0);
    let cut = crescent(&map, map.at(1.0, 1.0), map.at(2.0, 2.0), 1.5);
    let filled = fill(&map, &Region { outer: rect(&map, 1.0, 1.0, 4.0, 4.0), islands: vec![] });
    let touch = contact(&map, map.at(2.0, 2.0), 1.5, 8);
    let least = squares(&map);
    // Each number of an answer wrong.
    for (line, numbers) in [(&cut, 4), (&filled, 2), (&touch, 1), (&least, 2)] {
        (0..numbers).for_each(|back| println!("{}", changed(line, back)));
    }
    // No answer, a number too many, another word, no digit, a number too large, a blank too many and one
    // at the end, nothing.
    let (rest, _) = least.rsplit_once(' ').expect("two words");
    println!("{rest}");
    println!("{least} 0");
    println!("{}", with(&least, 0, "square"));
    println!("{}", with(&least, 1, "5g"));
    println!("{}", with(&least, 1, "10000000000000000"));
    println!("{}", with(&least, 1, " 5"));
    println!("{least} ");
    println!();
    // Columns and rows out of range, samples, vertices, and more numbers than a line holds.
    for (place, side) in [(3, "0"), (3, "21"), (4, "0"), (4, "21"), (4, "100000000")] {
        println!("{}", with(&least, place, side));
    }
    println!("{}", with(&touch, 11, "41"));
    println!("{}", with(&filled, 8, "19"));
    println!("{least}{}", " 0".repeat(70));
}

fn main() {
    for lines in [crescents(), fills(), contacts(), distances()] {
        lines.iter().for_each(|line| println!("{line}"));
    }
    write_unfit();
}
