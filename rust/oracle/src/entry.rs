//! Questions 1 to 15 of document 01, asked before planning.
use crate::geom::Region;
use crate::job::Job;
use crate::planner::AdaptiveParams;

/// Lengths of the lent bytes, u32, f32 and f64 for a map of n cells.
pub fn lent_needed(n: usize) -> [usize; 4] {
    [8 * n, 32 * n + 8192, 2 * n, 32 * n + 8192]
}

/// Raster sides as `Grid::new` has them with the planner's margin.
pub fn sides(region: &Region, cell: f64) -> (usize, usize) {
    let (lo, hi) = region.bounds();
    let margin = 2.0 * cell;
    let side = |lo: f64, hi: f64| (((hi - lo + 2.0 * margin) / cell).ceil() as usize).saturating_add(1);
    (side(lo.x, hi.x), side(lo.y, hi.y))
}

/// The number of the first question answered no.
pub fn refused(job: &Job) -> Option<u32> {
    parameter(&job.params).or_else(|| span(job)).or_else(|| loops(job)).or_else(|| sizes(job))
}

fn positive(v: f64) -> bool {
    v.is_finite() && v > 0.0
}

/// Questions 1 to 11.
fn parameter(p: &AdaptiveParams) -> Option<u32> {
    let engagement = p.max_engagement_deg;
    let answers = [
        positive(p.tool_diameter),
        engagement.is_finite() && (1.0..180.0).contains(&engagement),
        positive(p.step_down),
        p.top.is_finite() && p.bottom.is_finite() && p.bottom < p.top,
        p.stock_to_leave.is_finite() && p.stock_to_leave >= 0.0,
        p.safe_z.is_finite() && p.safe_z > p.top,
        positive(p.feed) && positive(p.plunge_feed) && positive(p.link_feed),
        positive(p.helix_ramp_deg) && p.helix_ramp_deg <= 45.0,
        p.helix_radius.is_none_or(positive),
        p.chip_thinning_max.is_none_or(|f| f.is_finite() && f >= 1.0),
        p.resolution.is_none_or(|c| positive(c) && c <= p.tool_diameter / 60.0 + 1e-12),
    ];
    answers.iter().position(|yes| !yes).map(|k| k as u32 + 1)
}

/// Question 12.
fn span(job: &Job) -> Option<u32> {
    let p = &job.params;
    let yes = (0.1..=100.0).contains(&p.tool_diameter)
        && job.cell() >= p.tool_diameter / 1000.0
        && p.stock_to_leave <= 100.0
        && p.helix_radius.is_none_or(|r| r <= 1000.0)
        && (p.top - p.bottom) / p.step_down <= 10_000.0;
    (!yes).then_some(12)
}

/// Question 13.
fn loops(job: &Job) -> Option<u32> {
    let regions = || std::iter::once(&job.pocket).chain(job.stock.iter().flatten());
    let total = regions().flatten().fold(0usize, |a, &b| a.saturating_add(b));
    let within = |v: f64| v.is_finite() && v.abs() <= 10_000.0;
    let yes = regions().all(|r| !r.is_empty() && r.len() <= 65 && r.iter().all(|&n| n >= 3))
        && job.stock.as_ref().is_none_or(|s| s.len() <= 16)
        && job.verts.len() <= 4096
        && total == job.verts.len()
        && job.verts.iter().all(|v| within(v.x) && within(v.y));
    (!yes).then_some(13)
}

/// Questions 14 and 15.
fn sizes(job: &Job) -> Option<u32> {
    let (nx, ny) = sides(&job.regions().0, job.cell());
    if nx > 4096 || ny > 4096 || nx * ny > 1_048_576 {
        return Some(14);
    }
    let enough = job.lent.iter().zip(lent_needed(nx * ny)).all(|(lent, need)| lent.is_none_or(|v| v >= need));
    (!enough).then_some(15)
}
