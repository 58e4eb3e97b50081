//! Random jobs from a seed, and the larger jobs for timing.
mod large;
mod malformed;
mod rng;
mod shapes;

use crate::entry;
use crate::job::Job;
use crate::planner::AdaptiveParams;
use crate::vec2::{Vec2, v2};
pub use large::large;
pub use rng::Rng;
use shapes::{Shape, add, shape, turn};
use std::f64::consts::{PI, TAU};

/// A seed's kind is one of these in turn.
pub const KINDS: [&str; 26] = [
    "rect",
    "circle",
    "ell",
    "star",
    "islands",
    "overlap",
    "open",
    "bigstock",
    "nokeep",
    "tiny",
    "narrow",
    "dumbbell",
    "frame",
    "outisland",
    "bowtie",
    "degenerate",
    "emptystock",
    "aligned",
    "malformed",
    "lent",
    "comb",
    "ringisle",
    "leave",
    "manystock",
    "far",
    "rotrect",
];

/// Only by name. Of `exact` the tracing level is exactly a field value, so that contours meet in a corner. Of `mirrored` two
/// pieces are equally near when the first is chosen, where the two orders may part. The others are where the two fills part:
/// islands in islands, islands that overlap or reach over the outer loop, the same in stock, outer loops and islands that cross
/// themselves.
pub const NAMED: [&str; 7] = [EXACT, "nested", "bosses", "stockisles", "crossed", "crossisles", "mirrored"];

const EXACT: &str = "exact";

/// The job of a seed and its kind. Positions of the kinds in `KINDS` and every draw are fixed: the
/// stored jobs are these.
pub fn job(seed: u64, kind: Option<&str>) -> Result<(Job, &'static str), String> {
    let mut rng = Rng(seed.wrapping_mul(0x2545_f491_4f6c_dd1d) ^ 0x5851_f42d_4c95_7f2d);
    let r = &mut rng;
    let kind = match kind {
        Some(k) => KINDS
            .iter()
            .chain(&NAMED)
            .find(|n| **n == k)
            .copied()
            .ok_or_else(|| format!("the kinds are {} {}", KINDS.join(" "), NAMED.join(" ")))?,
        None => KINDS[(seed % KINDS.len() as u64) as usize],
    };
    let mut p = params(r);
    if kind == EXACT {
        exact_level(&mut p, r);
    }
    let mut j = Job::new(p);
    let place = if r.chance(0.3) { Vec2::ZERO } else { v2(r.range(-100.0, 100.0), r.range(-100.0, 100.0)) };
    let mut shape = shape(kind, &mut j, r);
    if !matches!(kind, "aligned" | "degenerate" | "mirrored") {
        move_shape(kind, &mut shape, place, j.params.tool_diameter, r);
    }
    // Either turning sense.
    for l in shape.loops.iter_mut() {
        if r.chance(0.3) {
            l.reverse();
        }
    }
    add(&mut j, shape.loops, shape.stock);
    match kind {
        "lent" => lend(&mut j, r),
        "malformed" => malformed::malform(&mut j, r),
        _ => {}
    }
    Ok((j, kind))
}

fn move_shape(kind: &str, shape: &mut Shape, place: Vec2, diameter: f64, r: &mut Rng) {
    let turned = matches!(kind, "ell" | "islands" | "overlap" | "dumbbell" | "comb") && r.chance(0.5);
    let angle = r.range(0.0, TAU);
    let mut to = place;
    if kind == "far" {
        // Near the border of what question 13 allows, for tools that fit there.
        let corner = v2(r.pick(&[-9950.0, 9900.0]), r.pick(&[9900.0, -9900.0]));
        if diameter <= 12.0 {
            to = corner;
        }
    }
    shape.each_loop(|l| {
        if turned {
            turn(l, angle);
        }
        for v in l.iter_mut() {
            *v = *v + to;
        }
    });
}

/// Sizes on the border of questions 15 to 17.
fn lend(j: &mut Job, r: &mut Rng) {
    match r.below(4) {
        0 => {
            let k = r.below(4) as usize;
            let (nx, ny) = entry::sides(&j.regions().0, j.cell());
            j.lent[k] = Some(entry::lent_needed(nx * ny)[k] - r.below(2) as usize);
        }
        1 => j.lent_triples = r.pick(&[0, 1, 2, 50, 500, 2000]),
        2 => j.lent_rows = r.pick(&[0, 1, 2, 3, 5, 10]),
        _ => {
            j.lent_rows = r.below(12) as usize;
            j.lent_triples = r.below(3000) as usize;
        }
    }
}

/// An engagement limit whose tracing level is, in f32, exactly a field value.
fn exact_level(p: &mut AdaptiveParams, r: &mut Rng) {
    let d = p.tool_diameter;
    let cell = p.resolution.unwrap_or(d / 80.0);
    let rad = d * 0.5;
    let n = ((4.0 * PI * rad / cell).ceil() as usize).clamp(64, 2048);
    for _ in 0..1000 {
        let h = r.below(n as u64 / 2 - 4) as usize + 1;
        let want = (TAU * h as f64 / n as f64) as f32;
        let two = TAU * h as f64 / n as f64;
        // level = 1.7 guard
        let g = two / 1.7;
        for lim in [g / 0.95, g + 2.0 * cell / rad, g / 0.5] {
            let deg = lim.to_degrees();
            if !(1.0..180.0).contains(&deg) || deg < 10.0 {
                continue;
            }
            let l = deg.to_radians();
            let guard = (l - 2.0 * cell / rad).min(l * (1.0 - 0.05)).max(0.5 * l);
            if (2.0 * (guard * 0.85)) as f32 == want {
                p.max_engagement_deg = deg;
                return;
            }
        }
    }
}

fn params(r: &mut Rng) -> AdaptiveParams {
    let d = match r.below(8) {
        0 => 1.0,
        1 => 3.0,
        2 => 6.0,
        3 => 10.0,
        4 => 12.7,
        5 => r.range(0.1, 1.0),
        6 => r.range(20.0, 100.0),
        _ => r.range(1.0, 12.0),
    };
    let e = match r.below(8) {
        0 => r.range(1.0, 179.99),
        1 => r.range(60.0, 179.0),
        2 => 40.0,
        3 => 90.0,
        4 => r.range(8.0, 25.0),
        _ => r.range(25.0, 90.0),
    };
    let top = if r.chance(0.7) { 0.0 } else { r.range(-50.0, 50.0) };
    let depth = r.range(0.1, 30.0);
    AdaptiveParams {
        tool_diameter: d,
        max_engagement_deg: e,
        step_down: if r.chance(0.3) { depth } else { r.range(0.1, 10.0) },
        top,
        bottom: top - depth,
        stock_to_leave: 0.0,
        safe_z: top + r.range(0.5, 10.0),
        feed: r.range(100.0, 3000.0),
        plunge_feed: r.range(50.0, 900.0),
        link_feed: r.range(100.0, 5000.0),
        helix_ramp_deg: r.range(0.5, 45.0),
        helix_radius: if r.chance(0.4) { Some(d * r.range(0.05, 1.2)) } else { None },
        chip_thinning_max: if r.chance(0.2) { Some(r.range(1.0, 4.0)) } else { None },
        resolution: match r.below(4) {
            0 => None,
            1 => Some(d / r.range(60.0, 90.0)),
            2 => Some(d / r.range(60.0, 64.0)),
            _ => Some(d / 60.0),
        },
        keep_tool_down: !r.chance(0.12),
    }
}
