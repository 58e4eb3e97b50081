//! The leaves' refusals, at and beside each limit; what is refused changes nothing.
use pocket::{Contact, Grid, Log, Map, Point, Refusal, cos, linked, narrow, sin, sqrt, wanted};
use std::f64::consts::TAU;

const GRID: Grid = Grid { origin: Point::new(0.0, 0.0), cell: 1.0, nx: 5, ny: 5 };
const MIDDLE: Point = Point::new(2.5, 2.5);

fn number<T>(answer: Result<T, Refusal>) -> u32 {
    answer.map_or_else(|refusal| refusal.number, |_| 0)
}

/// A map that is full of stock, as large as a grid says or, where it says too much, small.
fn full(grid: Grid) -> Map {
    let cells = if grid.cells() <= 1 << 20 { grid.cells() } else { 25 };
    Map { grid, bytes: vec![1; cells] }
}

/// The answers of every leaf that takes a grid, a point and a radius; a refused one leaves map and log alone.
fn answers(grid: Grid, point: Point, radius: f64) -> Vec<u32> {
    let map = full(grid);
    let untouched = |after: &Map, number: u32| {
        assert!(number == 0 || after.bytes == map.bytes);
        number
    };
    let mut cleared = map.clone();
    let disk = number(cleared.clear_disk(point, radius));
    let mut cut = map.clone();
    let mut log = Log::of(&map);
    let empty = log.clone();
    let crescent = number(cut.clear_crescent(MIDDLE, point, radius, &mut log));
    assert!(crescent == 0 || log == empty);
    let mut back = map.clone();
    let from = number(back.clear_crescent(point, MIDDLE, radius, &mut empty.clone()));
    vec![
        untouched(&cleared, disk),
        untouched(&cut, crescent),
        untouched(&back, from),
        number(map.count_disk(point, radius)),
        number(map.contact(point, radius, 8)),
    ]
}

fn all(expected: u32, answers: Vec<u32>) {
    assert!(answers.iter().all(|n| *n == expected), "{answers:?}, not {expected}");
}

#[test]
fn coordinates_to_20_000() {
    for far in [20_000.0, -20_000f64] {
        let beyond = far + far.signum() * 1e-9;
        for (v, expected) in [(far, 0), (beyond, 12), (f64::NAN, 12), (f64::INFINITY * far, 12)] {
            all(expected, answers(GRID, Point::new(v, 2.5), 1.0));
            all(expected, answers(GRID, Point::new(2.5, v), 1.0));
            for origin in [Point::new(v, 0.0), Point::new(0.0, v)] {
                let grid = Grid { origin, ..GRID };
                all(expected, answers(grid, MIDDLE, 1.0));
                assert_eq!(number(linked::cell_of(grid, MIDDLE)), expected);
                assert_eq!(number(full(grid).fill_region(&triangle())), expected);
            }
            assert_eq!(number(linked::cell_of(GRID, Point::new(v, 0.0))), expected);
            assert_eq!(number(linked::cell_of(GRID, Point::new(0.0, v))), expected);
        }
    }
}

#[test]
fn radius_0_to_2_000() {
    let tiny = f64::from_bits(1);
    for (radius, expected) in [
        (0.0, 0),
        (-0.0, 0),
        (tiny, 0),
        (-tiny, 12),
        (2000.0, 0),
        (2000f64.next_up(), 12),
        (f64::NAN, 12),
        (f64::INFINITY, 12),
    ] {
        all(expected, answers(GRID, MIDDLE, radius));
    }
}

#[test]
fn cell_0_0001_to_100() {
    for (cell, expected) in [
        (0.0001, 0),
        (0.0001f64.next_down(), 12),
        (100.0, 0),
        (100f64.next_up(), 12),
        (0.0, 12),
        (-1.0, 12),
        (f64::NAN, 12),
        (f64::INFINITY, 12),
    ] {
        let grid = Grid { cell, ..GRID };
        all(expected, answers(grid, MIDDLE, 1.0));
        assert_eq!(number(linked::cell_of(grid, MIDDLE)), expected);
        assert_eq!(number(full(grid).fill_region(&triangle())), expected);
        assert_eq!(number(Map::new(grid)), expected);
        assert_eq!(number(wanted(50.0, cell)), expected);
    }
}

#[test]
fn samples_to_4_096() {
    for (samples, expected) in [(0, 0), (8, 0), (4096, 0), (4097, 12), (usize::MAX, 12)] {
        assert_eq!(number(full(GRID).contact(MIDDLE, 1.0, samples)), expected);
    }
}

#[test]
fn an_angle_of_8_to_4_096_samples_and_no_more_hits() {
    for (hits, samples, expected) in [
        (0, 8, 0),
        (8, 8, 0),
        (9, 8, 12),
        (7, 7, 12),
        (0, 0, 12),
        (4096, 4096, 0),
        (4097, 4096, 12),
        (0, 4097, 12),
        (usize::MAX, 8, 12),
        (0, usize::MAX, 12),
    ] {
        assert_eq!(number(linked::contact_angle(hits, samples)), expected, "{hits} of {samples}");
    }
    for samples in [8, 9, 360, 4096] {
        for hits in [0, 1, samples / 2, samples] {
            let angle = TAU * hits as f64 / samples as f64;
            assert_eq!(linked::contact_angle(hits, samples), Ok(angle));
            let contact = Contact::of_angle(angle, samples).unwrap();
            assert_eq!((contact.hits(), contact.samples(), contact.angle()), (hits, samples, angle));
            assert_eq!(Contact::of_angle(angle.next_up(), samples), None);
        }
    }
    assert_eq!([7, 4097, usize::MAX].map(|samples| Contact::of_angle(0.0, samples)), [None; 3]);
}

/// Every contact there is: an angle tells its hits.
#[test]
fn angles_rise_with_the_hits() {
    for samples in 8..=4096 {
        let angles = (0..=samples).map(|hits| linked::contact_angle(hits, samples).unwrap());
        assert!(angles.is_sorted_by(|a, b| a < b), "{samples}");
    }
}

#[test]
fn sides_to_4_096_and_cells_to_1_048_576() {
    for (nx, ny, expected) in [
        (4096, 1, 0),
        (1, 4096, 0),
        (4096, 256, 0),
        (1024, 1024, 0),
        (0, 5, 14),
        (5, 0, 14),
        (4097, 1, 14),
        (1, 4097, 14),
        (4096, 257, 14),
        (1025, 1024, 14),
        (usize::MAX, 2, 14),
        (usize::MAX, usize::MAX, 14),
    ] {
        let grid = Grid { nx, ny, ..GRID };
        let map = full(grid);
        all(expected, answers(grid, MIDDLE, 1.0));
        assert_eq!(number(linked::cell_of(grid, MIDDLE)), expected);
        assert_eq!(number(map.standing()), expected);
        assert_eq!(number(map.distance_map(1)), expected);
        assert_eq!(number(Map::new(grid)), expected);
        let log = Log { entries: vec![0], used: 1 };
        for act in [Map::undo, Map::clear_again] {
            let mut acted = map.clone();
            assert_eq!(number(act(&mut acted, &log)), expected);
            assert!(expected == 0 || acted == map);
        }
        let mut filled = map.clone();
        assert_eq!(number(filled.fill_region(&triangle())), expected);
        assert!(expected == 0 || filled == map);
    }
}

#[test]
fn a_map_of_n_bytes() {
    for (length, expected) in [(25, 0), (26, 0), (24, 15), (0, 15)] {
        let map = Map { grid: GRID, bytes: vec![1; length] };
        let log = Log { entries: vec![7; 30], used: 1 };
        let mut changed = map.clone();
        let numbers = [
            number(changed.clear_disk(MIDDLE, 1.0)),
            number(changed.clear_crescent(Point::new(1.5, 2.5), MIDDLE, 1.0, &mut log.clone())),
            number(changed.undo(&log)),
            number(changed.clear_again(&log)),
            number(changed.fill_region(&triangle())),
            number(map.count_disk(MIDDLE, 1.0)),
            number(map.standing()),
            number(map.contact(MIDDLE, 1.0, 8)),
            number(map.distance_map(1)),
        ];
        assert_eq!(numbers, [expected; 9]);
        assert!(expected == 0 || changed == map);
    }
}

#[test]
fn a_log_of_n_entries_with_room_for_the_stock() {
    // 25 cells of stock: the log has N entries, and 25 of them behind its used part.
    for (entries, used, expected) in
        [(25, 0, 0), (24, 0, 15), (26, 1, 0), (25, 1, 15), (25, 25, 15), (25, 26, 15), (25, usize::MAX, 15)]
    {
        let mut map = full(GRID);
        let mut log = Log { entries: vec![9; entries], used };
        let answer = map.clear_crescent(Point::new(1.5, 2.5), MIDDLE, 1.0, &mut log);
        assert_eq!(number(answer), expected, "{entries} {used}");
        if expected == 0 {
            assert_eq!((log.used, &log.entries[used..used + 3]), (used + 3, &[7, 13, 17][..]));
            // What it held before and beyond stays.
            assert!(log.entries[..used].iter().chain(&log.entries[used + 3..]).all(|e| *e == 9));
        } else {
            assert_eq!((map, log), (full(GRID), Log { entries: vec![9; entries], used }));
        }
    }
}

#[test]
fn logged_cells_below_n() {
    for (entries, used, expected) in [
        (vec![24], 1, 0),
        (vec![25], 1, 14),
        (vec![u32::MAX], 1, 14),
        (vec![3, 25], 1, 0),
        (vec![3, 25], 2, 14),
        (vec![3], 2, 14),
        (vec![], 0, 0),
        (vec![], 1, 14),
    ] {
        let log = Log { entries, used };
        for (act, byte) in [(Map::undo as fn(&mut Map, &Log) -> _, 0), (Map::clear_again, 1)] {
            let mut map = Map { grid: GRID, bytes: vec![byte; 25] };
            assert_eq!(number(act(&mut map, &log)), expected, "{log:?}");
            let changed = map.bytes.iter().filter(|b| **b != byte).count();
            assert_eq!(changed, if expected == 0 { used } else { 0 });
        }
    }
}

fn triangle() -> pocket::Shape {
    pocket::Shape::new(&[[1.0, 1.0], [4.0, 1.0], [1.0, 4.0]])
}

/// The answer to a region as it is lent.
fn filled(vertices: &[f64], lengths: &[u32]) -> u32 {
    let mut map = Map { grid: GRID, bytes: vec![0; 25] };
    let number = number(linked::fill_region(GRID, &mut map.bytes, vertices, lengths));
    assert!(number == 0 || map.standing() == Ok(0));
    number
}

#[test]
fn loops_of_a_region() {
    let square = [1.0, 1.0, 4.0, 1.0, 4.0, 4.0, 1.0, 4.0];
    assert_eq!(filled(&square, &[4]), 0);
    assert_eq!(filled(&square, &[3]), 13);
    assert_eq!(filled(&square, &[5]), 13);
    assert_eq!(filled(&square, &[4, 0]), 13);
    assert_eq!(filled(&square, &[2, 2]), 13);
    assert_eq!(filled(&square, &[u32::MAX, 5]), 13);
    assert_eq!(filled(&square, &[]), 13);
    assert_eq!(filled(&[], &[]), 13);
    assert_eq!(filled(&square[..7], &[3]), 13);
    let many = |loops: usize| filled(&vec![1.0; 6 * loops], &vec![3; loops]);
    assert_eq!((many(65), many(66)), (0, 13));
    let long = |n: usize| filled(&vec![1.0; 2 * n], &[n as u32]);
    assert_eq!((long(4096), long(4097)), (0, 13));
    // A vertex beyond 20,000 is asked for before the loops.
    assert_eq!(filled(&[20_001.0; 8], &[3]), 12);
    assert_eq!(filled(&[f64::NAN; 6], &[3]), 12);
}

/// Two islands of 4 cells with one in common are one boss of 7.
#[test]
fn islands_that_overlap() {
    let rect = |lo: f64, hi: f64| [[lo, lo], [hi, lo], [hi, hi], [lo, hi]];
    let boss = pocket::Shape::new(&rect(0.0, 5.0)).island(&rect(1.0, 3.0)).island(&rect(2.0, 4.0));
    let mut map = Map { grid: GRID, bytes: vec![0; 25] };
    assert_eq!(map.fill_region(&boss), Ok(()));
    assert_eq!(map.standing(), Ok(18));
    assert_eq!(map.bytes[2 * 5 + 2], 0);
}

#[test]
fn distances_have_room() {
    let marks = [1; 25];
    for (squares, distances, expected) in [(40, 25, 0), (41, 26, 0), (39, 25, 15), (40, 24, 15), (0, 0, 15)] {
        let (mut s, mut d) = (vec![77; squares], vec![77.0; distances]);
        assert_eq!(number(linked::distance_map([5, 5], &marks, 1, &mut s, &mut d)), expected);
        if expected == 0 {
            assert!(s[..40].iter().all(|v| *v == 0) && s[40..].iter().all(|v| *v == 77));
            assert!(d[..25].iter().all(|v| *v == 0.0) && d[25..].iter().all(|v| *v == 77.0));
        } else {
            assert!(s.iter().all(|v| *v == 77) && d.iter().all(|v| *v == 77.0));
        }
    }
}

#[test]
fn the_first_no_is_the_answer() {
    // 12 before 14 before 15.
    let short = |nx: usize, radius: f64| {
        let mut map = Map { grid: Grid { nx, ..GRID }, bytes: Vec::new() };
        number(map.clear_disk(MIDDLE, radius))
    };
    assert_eq!((short(0, -1.0), short(0, 1.0), short(5, 1.0)), (12, 14, 15));
    let mut map = Map { grid: GRID, bytes: Vec::new() };
    assert_eq!(number(map.undo(&Log { entries: vec![25], used: 1 })), 14);
}

#[test]
fn numbers_in_their_ranges() {
    for of in [sin, cos] {
        let answers =
            [0.0, -0.0, TAU, TAU.next_up(), -1e-300, f64::NAN, f64::INFINITY].map(|a| number(of(a)));
        assert_eq!(answers, [0, 0, 0, 12, 12, 12, 12]);
    }
    let roots = [0.0, f64::MAX, f64::from_bits(1), -f64::from_bits(1), f64::NAN, f64::INFINITY];
    assert_eq!(roots.map(|x| number(sqrt(x))), [0, 0, 0, 12, 12, 12]);
    let narrowed = [0.0, -1.0, f64::MAX, f64::NAN, f64::INFINITY, f64::NEG_INFINITY];
    assert_eq!(narrowed.map(|x| number(narrow(x))), [0, 0, 0, 12, 12, 12]);
    assert_eq!(narrow(f64::MAX), Ok(f32::INFINITY));
    assert_eq!([f64::NAN, f64::INFINITY].map(|length| number(wanted(length, 1.0))), [12, 12]);
    assert_eq!(number(wanted(0.0, 1.0)), 0);
}
