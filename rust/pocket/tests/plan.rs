//! Whole jobs through the safe crate.
use pocket::{Chunk, Job, Lent, Map, Params, Point, RawJob, Refusal, Shape};
use std::f64::consts::PI;

fn rect(x0: f64, y0: f64, x1: f64, y1: f64) -> [[f64; 2]; 4] {
    [[x0, y0], [x1, y0], [x1, y1], [x0, y1]]
}

/// A 6 mm tool at 60 degrees.
fn params() -> Params {
    Params { max_engagement_deg: 60.0, resolution: Some(0.1), ..Params::default() }
}

fn small() -> Job {
    Job::new(params(), Shape::new(&rect(0.0, 0.0, 12.0, 10.0)))
}

/// What holds of every plan.
fn sound(job: &Job) -> pocket::Plan {
    let plan = job.plan().unwrap();
    let (r, grid) = (&plan.report, &plan.grid);
    assert_eq!(plan.map.len(), grid.cells());
    let map = Map { grid: *grid, bytes: plan.map.clone() };
    assert_eq!(map.standing(), Ok(r.standing_cells));
    let area = |cells: usize| cells as f64 * (grid.cell * grid.cell);
    assert!((area(r.starting_cells - r.standing_cells) - r.removed_area).abs() < 1e-6);
    let limit = job.params.max_engagement_deg;
    let (mut kinds, mut greatest) = ([0; 4], 0f64);
    for chunk in plan.chunks() {
        kinds[match chunk {
            Chunk::Helix { radius, .. } => {
                assert!(radius > 0.0);
                0
            }
            Chunk::Plunge(_) => 1,
            Chunk::Link(_) => 2,
            Chunk::Cut(cuts) => {
                assert_eq!(cuts[0].angle, 0.0);
                greatest = cuts.iter().fold(greatest, |most, cut| most.max(cut.angle));
                3
            }
        }] += 1;
    }
    assert_eq!(kinds, [r.helix_entries, r.retracts, r.links, r.passes]);
    let contact = plan.greatest_contact(job.params.samples());
    assert_eq!(contact.map_or(0.0, |contact| contact.angle()), greatest);
    assert_eq!(greatest * 180.0 / PI, r.planned_max_engagement_deg);
    assert!(greatest * 180.0 / PI < limit);
    plan
}

#[test]
fn a_small_job() {
    let plan = sound(&small());
    assert_eq!((plan.grid.nx, plan.grid.ny), (125, 105));
    assert_eq!(plan.report.starting_cells, 12_000);
    assert!(plan.report.standing_cells < 1_500 && plan.report.passes > 5);
}

#[test]
fn a_job_with_islands() {
    let with = small().pocket.island(&rect(8.0, 7.9, 9.0, 8.9)).island(&rect(1.0, 1.0, 1.5, 1.5));
    let plan = sound(&Job { pocket: with, ..small() });
    assert_eq!(plan.report.starting_cells, 12_000 - 100 - 25);
}

#[test]
fn a_job_with_a_stock_list() {
    let stock = vec![Shape::new(&rect(5.0, -1.0, 20.0, 11.0)), Shape::new(&rect(10.0, 0.0, 11.0, 5.0))];
    let plan = sound(&Job { stock: Some(stock), ..small() });
    assert_eq!(plan.report.starting_cells, 7_000);
    let empty = sound(&Job { stock: Some(Vec::new()), ..small() });
    assert_eq!((empty.report.starting_cells, empty.rows.len()), (0, 0));
}

#[test]
fn a_sample_for_each_half_cell_of_the_rim() {
    let samples = |resolution| Params { resolution, ..Params::default() }.samples();
    let cells = [Some(0.1), None, Some(0.01842), Some(0.0184), Some(0.006)];
    assert_eq!(cells.map(samples), [377, 503, 2047, 2048, 2048]);
}

fn refused(answer: Result<pocket::Plan, Refusal>) -> u32 {
    answer.map_or_else(|refusal| refusal.number, |_| 0)
}

#[test]
fn rows_and_triples_as_many_as_the_plan_needs() {
    let plan = small().plan().unwrap();
    let exact = Job { most_rows: plan.rows.len(), ..small() };
    assert_eq!(exact.plan().as_ref(), Ok(&plan));
    assert_eq!(refused(Job { most_rows: plan.rows.len() - 1, ..small() }.plan()), 17);
    assert_eq!(refused(Job { most_triples: 5, ..small() }.plan()), 16);
    assert_eq!(refused(Job { most_triples: 0, most_rows: 0, ..small() }.plan()), 16);
    let plenty = Job { most_rows: usize::MAX, most_triples: usize::MAX, ..small() };
    assert_eq!(plenty.plan(), Ok(plan));
}

#[test]
fn a_pocket_that_is_too_narrow() {
    assert_eq!(refused(Job { pocket: Shape::new(&rect(0.0, 0.0, 12.0, 5.0)), ..small() }.plan()), 18);
}

#[test]
fn a_pocket_that_is_too_large() {
    for far in [150.0, 10_000.0] {
        assert_eq!(refused(Job { pocket: Shape::new(&rect(0.0, 0.0, far, far)), ..small() }.plan()), 14);
    }
}

/// The raw form of the small job, changed.
fn raw(change: impl FnOnce(&mut RawJob)) -> RawJob {
    let mut raw = small().raw();
    change(&mut raw);
    raw
}

#[test]
fn loops_that_are_none() {
    let jobs = [
        raw(|j| j.lengths = vec![3]),
        raw(|j| j.lengths = vec![5]),
        raw(|j| j.lengths = vec![u32::MAX, u32::MAX]),
        raw(|j| j.lengths = vec![]),
        raw(|j| j.regions = vec![]),
        raw(|j| j.regions = vec![0]),
        raw(|j| j.regions = vec![u32::MAX]),
        raw(|j| j.regions = vec![1, 0]),
        raw(|j| j.vertices = vec![]),
        raw(|j| j.vertices.push(1.0)),
        raw(|j| j.vertices[3] = f64::NAN),
        raw(|j| j.vertices[3] = 10_000.001),
        Job { pocket: Shape::default(), ..small() }.raw(),
        Job { stock: Some(vec![Shape::default()]), ..small() }.raw(),
    ];
    for job in jobs {
        assert_eq!(refused(job.plan()), 13, "{:?} {:?}", job.lengths, job.regions);
    }
}

#[test]
fn a_workspace_that_is_too_short() {
    let n = small().raw().cells();
    assert_eq!(n, 125 * 105);
    let needed = pocket::workspace_needed(n);
    let lend = |k: usize, length: usize| {
        let mut lent = Lent::default();
        *[&mut lent.bytes, &mut lent.words, &mut lent.singles, &mut lent.doubles][k] = Some(length);
        refused(raw(|j| j.lent = lent).plan())
    };
    for (k, needed) in needed.into_iter().enumerate() {
        assert_eq!([needed - 1, needed, usize::MAX].map(|length| lend(k, length)), [15, 0, 0]);
    }
}

#[test]
fn a_raw_job_has_the_shapes_it_was_made_of() {
    let stock = vec![Shape::new(&rect(5.0, -1.0, 20.0, 11.0)).island(&rect(6.0, 1.0, 7.0, 2.0))];
    let job = Job { stock: Some(stock.clone()), ..small() };
    assert_eq!(job.raw().shapes(), Some(vec![job.pocket.clone(), stock[0].clone()]));
    assert_eq!(raw(|j| j.lengths = vec![5]).shapes(), None);
    assert_eq!(raw(|j| j.lengths = vec![4, 4]).shapes(), None);
    assert_eq!(raw(|j| j.regions = vec![0]).shapes(), None);
}

#[test]
fn a_refusal_says_its_question() {
    let refusal = small_with(|p| p.max_engagement_deg = 180.0);
    assert_eq!(refusal.number, 2);
    assert_eq!(refusal.to_string(), "2: max engagement finite, at least 1, below 180? No");
    let questions: Vec<&str> = (1..=pocket::LAST).map(|number| Refusal { number }.question()).collect();
    assert_eq!(questions.len(), 18);
    assert!(questions.iter().all(|q| q.ends_with('?')));
    assert_eq!([0, 19, u32::MAX].map(|n| Refusal { number: n }.question().ends_with('?')), [false; 3]);
}

fn small_with(change: impl FnOnce(&mut Params)) -> Refusal {
    let mut job = small();
    change(&mut job.params);
    job.plan().unwrap_err()
}

#[test]
fn parameters_that_are_none() {
    for bad in [f64::NAN, f64::INFINITY, f64::NEG_INFINITY] {
        assert_eq!(small_with(|p| p.tool_diameter = bad).number, 1);
        assert_eq!(small_with(|p| p.resolution = Some(bad)).number, 11);
        let mut job = small();
        job.pocket.outer[0] = Point::new(bad, 0.0);
        assert_eq!(refused(job.plan()), 13);
    }
}
