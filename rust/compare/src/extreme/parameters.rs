//! Questions 1 to 12.
use super::{Case, NOT_FINITE, TINY, down, point, up};
use oracle::planner::AdaptiveParams;

const MAX: f64 = f64::MAX;
const NORMAL: f64 = f64::MIN_POSITIVE;

type Set = fn(&mut AdaptiveParams, f64);

/// A parameter, the question that asks whether it is finite, and its values with their answers.
struct Limits {
    name: &'static str,
    set: Set,
    question: u32,
    values: Vec<(f64, u32)>,
}

fn limits(name: &'static str, set: Set, question: u32, values: &[(f64, u32)]) -> Limits {
    Limits { name, set, question, values: values.to_vec() }
}

/// Tool 6, engagement 40, step-down 6, top 0, bottom -6, safe Z 5.
fn table() -> Vec<Limits> {
    let feeds = [(0.0, 7), (-0.0, 7), (TINY, 0), (-TINY, 7), (NORMAL, 0), (MAX, 0), (-MAX, 7)];
    // 6/60 and 1e-12.
    let coarse = 0.1 + 1e-12;
    vec![
        limits(
            "diameter",
            |p, v| p.tool_diameter = v,
            1,
            &[
                (0.0, 1),
                (-0.0, 1),
                (TINY, 12),
                (-TINY, 1),
                (NORMAL, 12),
                (down(0.1), 12),
                (0.1, 0),
                (up(0.1), 0),
                (down(100.0), 0),
                (100.0, 0),
                (up(100.0), 12),
                (MAX, 12),
                (-MAX, 1),
            ],
        ),
        limits(
            "engagement",
            |p, v| p.max_engagement_deg = v,
            2,
            &[
                (0.0, 2),
                (-0.0, 2),
                (TINY, 2),
                (down(1.0), 2),
                (1.0, 0),
                (up(1.0), 0),
                (down(180.0), 0),
                (180.0, 2),
                (up(180.0), 2),
                (-40.0, 2),
                (MAX, 2),
                (-MAX, 2),
            ],
        ),
        limits(
            "step_down",
            |p, v| p.step_down = v,
            3,
            &[(0.0, 3), (-0.0, 3), (TINY, 12), (-TINY, 3), (NORMAL, 12), (MAX, 0), (-MAX, 3)],
        ),
        limits(
            "top",
            |p, v| p.top = v,
            4,
            &[
                (down(-6.0), 4),
                (-6.0, 4),
                (up(-6.0), 0),
                (-0.0, 0),
                (TINY, 0),
                (-TINY, 0),
                (down(5.0), 0),
                (5.0, 6),
                (up(5.0), 6),
                (MAX, 6),
                (-MAX, 4),
            ],
        ),
        limits(
            "bottom",
            |p, v| p.bottom = v,
            4,
            &[(0.0, 4), (-0.0, 4), (TINY, 4), (-TINY, 0), (-NORMAL, 0), (MAX, 4), (-MAX, 12)],
        ),
        limits(
            "leave",
            |p, v| p.stock_to_leave = v,
            5,
            &[
                (0.0, 0),
                (-0.0, 0),
                (TINY, 0),
                (-TINY, 5),
                (down(100.0), 0),
                (100.0, 0),
                (up(100.0), 12),
                (MAX, 12),
                (-MAX, 5),
            ],
        ),
        limits(
            "safe_z",
            |p, v| p.safe_z = v,
            6,
            &[(0.0, 6), (-0.0, 6), (TINY, 0), (-TINY, 6), (MAX, 0), (-MAX, 6)],
        ),
        limits("feed", |p, v| p.feed = v, 7, &feeds),
        limits("plunge_feed", |p, v| p.plunge_feed = v, 7, &feeds),
        limits("link_feed", |p, v| p.link_feed = v, 7, &feeds),
        limits(
            "ramp",
            |p, v| p.helix_ramp_deg = v,
            8,
            &[
                (0.0, 8),
                (-0.0, 8),
                (TINY, 0),
                (-TINY, 8),
                (down(45.0), 0),
                (45.0, 0),
                (up(45.0), 8),
                (MAX, 8),
                (-MAX, 8),
            ],
        ),
        limits(
            "helix",
            |p, v| p.helix_radius = Some(v),
            9,
            &[
                (0.0, 9),
                (-0.0, 9),
                (TINY, 0),
                (-TINY, 9),
                (down(1000.0), 0),
                (1000.0, 0),
                (up(1000.0), 12),
                (MAX, 12),
                (-MAX, 9),
            ],
        ),
        limits(
            "chip",
            |p, v| p.chip_thinning_max = Some(v),
            10,
            &[
                (0.0, 10),
                (-0.0, 10),
                (TINY, 10),
                (down(1.0), 10),
                (1.0, 0),
                (up(1.0), 0),
                (MAX, 0),
                (-MAX, 10),
            ],
        ),
        limits(
            "resolution",
            |p, v| p.resolution = Some(v),
            11,
            &[
                (0.0, 11),
                (-0.0, 11),
                (TINY, 12),
                (-TINY, 11),
                (down(0.006), 12),
                (0.006, 0),
                (up(0.006), 0),
                (0.1, 0),
                (down(coarse), 0),
                (coarse, 0),
                (up(coarse), 11),
                (MAX, 11),
                (-MAX, 11),
            ],
        ),
    ]
}

/// Several parameters at once.
fn together() -> Vec<(&'static str, AdaptiveParams, u32)> {
    let with = |set: fn(&mut AdaptiveParams)| {
        let mut params = point().params;
        set(&mut params);
        params
    };
    let depth = |bottom: f64, step: f64| AdaptiveParams { bottom, step_down: step, ..point().params };
    let cell = |diameter: f64, cell: f64| AdaptiveParams {
        tool_diameter: diameter,
        resolution: Some(cell),
        ..point().params
    };
    vec![
        ("10,000 layers", depth(-10_000.0, 1.0), 0),
        ("a float more", depth(-up(10_000.0), 1.0), 12),
        ("a float less", depth(-down(10_000.0), 1.0), 0),
        // The quotient is 10,000 and 0.6 of a float more.
        ("a step a float less", depth(-10_000.0, down(1.0)), 12),
        ("a step a float more", depth(-10_000.0, up(1.0)), 0),
        ("the least depth and step", depth(-TINY, TINY), 0),
        ("10,000 of the least steps", depth(-10_000.0 * TINY, TINY), 0),
        ("one more", depth(-10_001.0 * TINY, TINY), 12),
        ("a depth beyond the floats", with(|p| (p.top, p.bottom, p.safe_z) = (down(MAX), -MAX, MAX)), 12),
        ("nothing is above the greatest float", with(|p| (p.top, p.safe_z) = (MAX, MAX)), 6),
        ("zeros are equal", with(|p| (p.top, p.bottom) = (0.0, -0.0)), 4),
        ("zeros are equal, the other way", with(|p| (p.top, p.bottom) = (-0.0, 0.0)), 4),
        ("safe Z 0 above top -0", with(|p| (p.top, p.safe_z) = (-0.0, 0.0)), 6),
        ("coarse at the least diameter", cell(0.1, 0.1 / 60.0 + 1e-12), 0),
        ("a float coarser", cell(0.1, up(0.1 / 60.0 + 1e-12)), 11),
        ("coarse at the greatest diameter", cell(100.0, 100.0 / 60.0 + 1e-12), 0),
        ("a float coarser there", cell(100.0, up(100.0 / 60.0 + 1e-12)), 11),
        ("fine at the least diameter", cell(0.1, 0.1 / 1000.0), 0),
        ("a float finer", cell(0.1, down(0.1 / 1000.0)), 12),
        ("fine at the greatest diameter", cell(100.0, 100.0 / 1000.0), 0),
        ("a float finer there", cell(100.0, down(100.0 / 1000.0)), 12),
    ]
}

/// For each question something that it turns back, and no other one does.
const TURNED_BACK: [fn(&mut AdaptiveParams); 12] = [
    |p| p.tool_diameter = -1.0,
    |p| p.max_engagement_deg = 180.0,
    |p| p.step_down = f64::NAN,
    |p| p.bottom = f64::NAN,
    |p| p.stock_to_leave = -1.0,
    |p| p.safe_z = f64::NAN,
    |p| p.link_feed = 0.0,
    |p| p.helix_ramp_deg = 46.0,
    |p| p.helix_radius = Some(-1.0),
    |p| p.chip_thinning_max = Some(0.5),
    |p| p.resolution = Some(f64::NAN),
    |p| (p.top, p.bottom, p.safe_z) = (1e300, -1e300, 2e300),
];

/// The first no is the answer: every two questions answered no.
fn first_no() -> Vec<Case> {
    let mut out = Vec::new();
    for (first, break_first) in TURNED_BACK.iter().enumerate() {
        for break_second in &TURNED_BACK[first..] {
            let mut job = point();
            // The second before the first: some share a parameter.
            break_second(&mut job.params);
            break_first(&mut job.params);
            out.push(Case::job(format!("{} and another", first + 1), job, first as u32 + 1));
        }
    }
    out
}

pub fn cases() -> Vec<Case> {
    let mut out = first_no();
    for limits in table() {
        let beyond = NOT_FINITE.iter().map(|&value| (value, limits.question));
        for (value, want) in limits.values.iter().copied().chain(beyond) {
            let mut job = point();
            (limits.set)(&mut job.params, value);
            out.push(Case::job(format!("{} {value:e}", limits.name), job, want));
        }
    }
    for (name, params, want) in together() {
        let mut job = point();
        job.params = params;
        out.push(Case::job(name.into(), job, want));
    }
    out
}
