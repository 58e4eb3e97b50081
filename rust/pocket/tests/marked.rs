//! Document 01's marked rows, through the safe crate.
use pocket::{Grid, Log, Map, Params, Point, RawJob, Shape, cos, narrow, sqrt, wanted};
use std::f64::consts::TAU;

const MIDDLE: Point = Point::new(2.5, 2.5);

/// 5 by 5 cells of 1 mm at the origin.
fn map(byte: u8) -> Map {
    let grid = Grid { origin: Point::default(), cell: 1.0, nx: 5, ny: 5 };
    Map { grid, bytes: vec![byte; 25] }
}

#[test]
fn a_disk_is_cleared_once() {
    let mut map = map(1);
    assert_eq!(map.count_disk(MIDDLE, 1.0), Ok(5));
    assert_eq!(map.clear_disk(MIDDLE, 1.0), Ok(5));
    assert_eq!(map.clear_disk(MIDDLE, 1.0), Ok(0));
    assert_eq!(map.standing(), Ok(20));
}

#[test]
fn a_crescent_is_logged_undone_and_cleared_again() {
    let mut map = map(1);
    let mut log = Log::of(&map);
    let before = Point::new(1.5, 2.5);
    assert_eq!(map.clear_crescent(before, MIDDLE, 1.0, &mut log), Ok(3));
    assert_eq!(log.cells(), [7, 13, 17]);
    assert_eq!(map.standing(), Ok(22));
    let cleared = map.clone();
    assert_eq!(map.undo(&log), Ok(()));
    assert_eq!(map.standing(), Ok(25));
    assert_eq!(map.clear_again(&log), Ok(()));
    assert_eq!(map, cleared);
}

#[test]
fn a_crescent_from_a_point_to_itself_is_empty() {
    let mut map = map(1);
    let mut log = Log::of(&map);
    assert_eq!(map.clear_crescent(MIDDLE, MIDDLE, 1.0, &mut log), Ok(0));
    assert_eq!((log.used, map.standing()), (0, Ok(25)));
}

#[test]
fn contact_is_the_whole_rim_or_none_and_takes_eight_samples() {
    let told = |map: &Map, samples: usize| {
        let contact = map.contact(MIDDLE, 1.0, samples).unwrap();
        (contact.hits(), contact.samples(), contact.angle())
    };
    assert_eq!(told(&map(1), 4), (8, 8, TAU));
    assert_eq!(told(&map(0), 4), (0, 8, 0.0));
    // Two of eight samples meet the only cell, at half a step to either side of east; of four none would.
    let mut one = map(0);
    one.bytes[13] = 1;
    assert_eq!(told(&one, 8), (2, 8, TAU / 4.0));
    assert_eq!(told(&one, 4), (2, 8, TAU / 4.0));
    assert_eq!(told(&one, 9).1, 9);
}

#[test]
fn a_point_has_its_cell_or_none() {
    assert_eq!(map(1).cell_of(Point::new(5.0, 2.0)), Ok(None));
    assert_eq!(map(1).cell_of(Point::new(0.0, 0.0)), Ok(Some((0, 0))));
    assert_eq!(map(1).cell_of(Point::new(4.5, 2.0)), Ok(Some((4, 2))));
}

#[test]
fn squares_around_one_mark_and_none() {
    let grid = Grid { origin: Point::default(), cell: 1.0, nx: 3, ny: 3 };
    let mut map = Map::new(grid).unwrap();
    let none = map.distance_map(1).unwrap();
    assert_eq!(none.squares, [u32::MAX; 9]);
    assert!(none.distances.iter().all(|d| *d == f64::INFINITY));
    map.bytes[4] = 1;
    let one = map.distance_map(1).unwrap();
    assert_eq!(one.squares, [2, 1, 2, 1, 0, 1, 2, 1, 2]);
    assert!(one.squares.iter().zip(&one.distances).all(|(s, d)| *d == f64::from(*s).sqrt()));
}

#[test]
fn a_square_is_filled_on_its_raster() {
    let square = Shape::new(&[[0.0, 0.0], [4.0, 0.0], [4.0, 4.0], [0.0, 4.0]]);
    let params = Params { resolution: Some(1.0), ..Params::default() };
    let grid = pocket::Job::new(params, square.clone()).raw().grid().unwrap();
    assert_eq!((grid.origin, grid.nx, grid.ny), (Point::new(-2.0, -2.0), 9, 9));
    assert_eq!(grid.center(0, 8), Point::new(-1.5, 6.5));
    let mut map = Map::new(grid).unwrap();
    assert_eq!(map.fill_region(&square), Ok(()));
    assert_eq!(map.standing(), Ok(16));
}

#[test]
fn numbers() {
    assert_eq!(cos(0.0), Ok(1.0));
    assert_eq!(sqrt(2.25), Ok(1.5));
    let tiny = 2f64.powi(-24);
    assert_eq!(narrow(1.0 + tiny), Ok(1.0));
    assert_eq!(narrow(1.0 + 3.0 * tiny), Ok(1.0 + 2f32.powi(-22)));
    assert_eq!(wanted(100.0, 1.0), Ok(5));
    assert_eq!(wanted(60.0, 1.0), Ok(4));
}

/// The answer's number to a job over 9 by 9 mm, 0 where it is planned.
fn answer(change: impl Fn(&mut Params)) -> u32 {
    let mut params = Params::default();
    change(&mut params);
    let square = Shape::new(&[[0.0, 0.0], [9.0, 0.0], [9.0, 9.0], [0.0, 9.0]]);
    pocket::Job::new(params, square).plan().map_or_else(|refusal| refusal.number, |_| 0)
}

#[test]
fn jobs_run_by_program() {
    assert_eq!(answer(|p| p.max_engagement_deg = 1.0), 0);
    assert_eq!(answer(|p| p.max_engagement_deg = 0.999), 2);
    assert_eq!(answer(|p| p.max_engagement_deg = 180.0), 2);
    assert_eq!(answer(|p| p.resolution = Some(0.1)), 0);
    assert_eq!(answer(|p| p.resolution = Some(0.11)), 11);
    assert_eq!(answer(|p| (p.tool_diameter, p.bottom) = (0.0, 1.0)), 1);
}

#[test]
fn three_equal_vertices_are_accepted_without_chunks() {
    let mut job = RawJob::new(Params::default());
    (job.vertices, job.lengths, job.regions) = (vec![2.0; 6], vec![3], vec![1]);
    let plan = job.plan().unwrap();
    assert_eq!((plan.rows.len(), plan.triples.len(), plan.chunks().count()), (0, 0, 0));
    assert_eq!((plan.grid.nx, plan.grid.ny), (5, 5));
    assert_eq!(plan.report.starting_cells, 0);
}
