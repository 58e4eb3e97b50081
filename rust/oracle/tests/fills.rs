//! The two fills of a region on small maps, cells counted by hand; which of them a job's answer is expected by.
use oracle::expected::expected;
use oracle::fills::agree;
use oracle::generate::Rng;
use oracle::geom::Region;
use oracle::job::{self, Job};
use oracle::raster::Grid;
use oracle::run::{print, run};
use oracle::stored::stored;
use oracle::switches::{self, Switches};
use oracle::vec2::{Vec2, v2};

/// 12 by 10 cells of side 1 with centres at halves.
const NX: usize = 12;
const NY: usize = 10;

fn grid() -> Grid {
    Grid { origin: Vec2::ZERO, cell: 1.0, nx: NX, ny: NY, data: vec![false; NX * NY] }
}

fn rect(x0: f64, y0: f64, x1: f64, y1: f64) -> Vec<Vec2> {
    vec![v2(x0, y0), v2(x1, y0), v2(x1, y1), v2(x0, y1)]
}

/// The cells that the print's fill and the changed one set, in the order of their numbers. By rows the changed one sets
/// the cells of the rule itself.
fn filled(outer: Vec<Vec2>, islands: &[Vec<Vec2>]) -> [Vec<(usize, usize)>; 2] {
    let region = Region { outer, islands: islands.to_vec() };
    let [mut printed, mut changed, mut each] = [grid(), grid(), grid()];
    printed.fill_region_printed(&region, true);
    changed.fill_region_contained(&region, true);
    each.fill_region_each(&region, true);
    assert_eq!(changed.data, each.data);
    [printed, changed].map(|g| (0..NX * NY).filter(|k| g.data[*k]).map(|k| (k % NX, k / NX)).collect())
}

/// The cells that one of the fills sets and the other does not.
fn apart([printed, changed]: &[Vec<(usize, usize)>; 2]) -> Vec<(usize, usize)> {
    let only = |a: &[(usize, usize)], b: &[(usize, usize)]| {
        a.iter().filter(|k| !b.contains(k)).copied().collect::<Vec<_>>()
    };
    [only(printed, changed), only(changed, printed)].concat()
}

/// 8 by 6 cells.
fn outer() -> Vec<Vec2> {
    rect(1.0, 1.0, 9.0, 7.0)
}

#[test]
fn plain_regions() {
    for (islands, cells) in [
        (vec![], 48),
        (vec![rect(3.0, 2.0, 5.0, 4.0)], 44),
        (vec![rect(3.0, 2.0, 5.0, 4.0), rect(6.0, 3.0, 7.0, 6.0)], 41),
        // An island without vertices.
        (vec![vec![], rect(3.0, 2.0, 5.0, 4.0)], 44),
        // The same island, turning the other way.
        (vec![rect(5.0, 4.0, 3.0, 2.0)], 44),
    ] {
        let both = filled(outer(), &islands);
        assert_eq!(both[0].len(), cells, "{islands:?}");
        assert_eq!(both[0], both[1], "{islands:?}");
    }
}

/// Two islands of 9 cells each with 2 in common: the print sets those, in the middle of the boss.
#[test]
fn overlapping_islands() {
    let both = filled(outer(), &[rect(2.0, 2.0, 5.0, 5.0), rect(4.0, 3.0, 7.0, 6.0)]);
    assert_eq!([both[0].len(), both[1].len()], [48 - 7 - 7, 48 - 9 - 7]);
    assert_eq!(apart(&both), [(4, 3), (4, 4)]);
}

/// An island of 20 cells, in it one of 6 and in that one of 1: the print sets the second one but for the third.
#[test]
fn nested_islands() {
    let both =
        filled(outer(), &[rect(2.0, 2.0, 7.0, 6.0), rect(3.0, 3.0, 6.0, 5.0), rect(4.0, 3.0, 5.0, 4.0)]);
    assert_eq!([both[0].len(), both[1].len()], [48 - 20 + 5, 48 - 20]);
    assert_eq!(apart(&both), [(3, 3), (5, 3), (3, 4), (4, 4), (5, 4)]);
}

/// An island of 9 cells, 4 of them in the outer loop: the print sets the others.
#[test]
fn an_island_over_the_outer_loop() {
    let both = filled(outer(), &[rect(7.0, 5.0, 10.0, 8.0)]);
    assert_eq!([both[0].len(), both[1].len()], [44 + 5, 44]);
    assert_eq!(apart(&both), [(9, 5), (9, 6), (7, 7), (8, 7), (9, 7)]);
}

/// Within one loop both fills count by even and odd: where a loop winds twice is outside. An island there is set by the
/// print.
#[test]
fn loops_that_cross_themselves() {
    // Rows of 6, 6, 4, 4, 8 and 8; it winds twice about the 4 by 2 cells from (3, 3).
    let crossed = [(1, 1), (7, 1), (7, 5), (3, 5), (3, 3), (9, 3), (9, 7), (1, 7)];
    let crossed: Vec<Vec2> = crossed.iter().map(|&(x, y)| v2(x as f64, y as f64)).collect();
    let both = filled(crossed.clone(), &[]);
    assert_eq!(both[0].len(), 36);
    assert_eq!(both[0], both[1]);
    assert_eq!(apart(&filled(crossed.clone(), &[rect(4.0, 3.0, 6.0, 4.0)])), [(4, 3), (5, 3)]);
    // As an island of a region of 100 cells.
    let both = filled(rect(0.0, 0.0, 10.0, 10.0), &[crossed]);
    assert_eq!(both[0].len(), 64);
    assert_eq!(both[0], both[1]);
    // A star in one line: its middle is outside, its points are inside.
    let star = vec![v2(6.0, 9.8), v2(3.1, 0.9), v2(10.7, 6.4), v2(1.3, 6.4), v2(8.9, 0.9)];
    let both = filled(star, &[]);
    assert_eq!(both[0], both[1]);
    assert!(!both[0].contains(&(5, 4)) && both[0].contains(&(5, 7)) && both[0].contains(&(3, 5)));
}

/// A centre on an edge: the print takes in those on both edges of a span, `contains` those on the left alone.
#[test]
fn centres_on_edges() {
    // Columns 2 to 5 by the print, 2 to 4 by `contains`; rows 1 and 2 by both.
    let both = filled(rect(2.5, 1.5, 5.5, 3.5), &[]);
    assert_eq!([both[0].len(), both[1].len()], [8, 6]);
    assert_eq!(apart(&both), [(5, 1), (5, 2)]);
    // An island's left edge on centres: they are the island's by `contains` alone.
    let both = filled(outer(), &[rect(3.5, 2.0, 5.0, 4.0)]);
    assert_eq!([both[0].len(), both[1].len()], [46, 44]);
    assert_eq!(apart(&both), [(3, 2), (3, 3)]);
    // Its right edge: by both it is the pocket's.
    let both = filled(outer(), &[rect(3.0, 2.0, 4.5, 4.0)]);
    assert_eq!(both[0].len(), 46);
    assert_eq!(both[0], both[1]);
}

/// A fill sets cells to the value and leaves the others as they are.
#[test]
fn cells_outside_stay() {
    let region = Region { outer: outer(), islands: vec![rect(3.0, 2.0, 5.0, 4.0)] };
    let mut g = grid();
    g.data.fill(true);
    g.fill_region_contained(&region, false);
    assert_eq!(g.count(), NX * NY - 44);
    g.fill_region_contained(&region, true);
    assert_eq!(g.count(), NX * NY);
}

/// By rows the changed fill sets the cells of the rule, on any loops.
#[test]
fn rows_set_the_cells_of_the_rule() {
    let mut r = Rng(71);
    for _ in 0..4_000 {
        let (nx, ny) = (1 + r.below(20) as usize, 1 + r.below(20) as usize);
        let (origin, cell) = (v2(r.range(-9.0, 9.0), -1.5), r.pick(&[1.0, 0.25, 0.1, 3.7]));
        let mut by_rows = Grid { origin, cell, nx, ny, data: vec![false; nx * ny] };
        let mut each = by_rows.clone();
        let side = |r: &mut Rng, n: usize| match r.below(3) {
            0 => r.below(n as u64 + 2) as f64,
            1 => r.below(n as u64 + 1) as f64 + 0.5,
            _ => r.range(-1.0, n as f64 + 1.0),
        };
        let points = |r: &mut Rng, least: u64| -> Vec<Vec2> {
            let count = least + r.below(7);
            (0..count).map(|_| origin + v2(side(r, nx), side(r, ny)) * cell).collect()
        };
        let region = Region {
            outer: points(&mut r, 3),
            islands: (0..r.below(4)).map(|_| points(&mut r, 0)).collect(),
        };
        by_rows.fill_region_contained(&region, true);
        each.fill_region_each(&region, true);
        assert_eq!(by_rows.data, each.data, "{region:?}");
    }
}

/// A job of 12 by 12 mm with two islands whose overlap is `wide` mm.
fn boss(wide: f64) -> Job {
    let text = format!(
        "diameter 6\nresolution 0.1\nengagement 60\npocket 4 4 4\nverts 12\n0 0\n12 0\n12 12\n0 12\n\
         8 8\n9.5 8\n9.5 9.5\n8 9.5\n{} 8\n10.5 8\n10.5 9.5\n{} 9.5\n",
        9.5 - wide,
        9.5 - wide
    );
    job::parse(&text).unwrap()
}

/// Cells of 0.1: the pocket has 120 by 120, the boss 25 by 15, the overlap of 0.5 mm 5 by 15. Beside one another the
/// islands agree; without a raster there is nothing to differ.
#[test]
fn which_fill_is_expected() {
    let starting = |job: &Job| expected(job, false).outcome.answer.unwrap().report.starting_cells;
    let beside = boss(-0.5);
    assert!(agree(&beside));
    assert_eq!(starting(&beside), 120 * 120 - 15 * 15 - 5 * 15);
    assert_eq!(print(&expected(&beside, false).outcome, false), print(&run(&beside, false), false));
    let over = boss(0.5);
    assert!(!agree(&over));
    assert_eq!(starting(&over), 120 * 120 - 25 * 15);
    assert_eq!(run(&over, false).answer.unwrap().report.starting_cells, 120 * 120 - 25 * 15 + 5 * 15);
    let mut none = over.clone();
    none.params.tool_diameter = 0.0;
    assert!(agree(&none));
    assert_eq!(expected(&none, false).outcome.answer.err(), Some(1));
}

/// Stock regions count too, each by itself: two that overlap agree.
#[test]
fn fills_of_stock() {
    let mut job = boss(-0.5);
    let stock = |job: &mut Job, lengths: Vec<Vec<usize>>, verts: Vec<Vec2>| {
        job.verts.truncate(12);
        job.stock = Some(lengths);
        job.verts.extend(verts);
    };
    let (all, low) = (rect(0.0, 0.0, 12.0, 12.0), rect(1.0, 1.0, 7.0, 7.0));
    stock(&mut job, vec![vec![4], vec![4]], [all.clone(), low.clone()].concat());
    assert!(agree(&job));
    stock(&mut job, vec![vec![4], vec![4, 4, 4]], [all.clone(), all, low.clone(), low].concat());
    assert!(!agree(&job));
}

/// The other switches hold meanwhile, and all are as they were before.
#[test]
fn the_switches_are_restored() {
    let job = stored("00054-ell");
    let plan = || print(&expected(&job, false).outcome, false);
    let held = Switches { higher_first: true, ..Switches::default() };
    let (mistaken, after) = switches::with(held, || (plan(), switches::get()));
    assert_eq!((after, switches::get()), (held, Switches::default()));
    assert_ne!(mistaken, plan());
}
