//! The call of the proved planner by its C name. Floats that are lent are their bits, so that every change of a slice is seen.
use oracle::planner::{AdaptiveParams, AdaptiveReport};
pub use pocket::Report;
use pocket::linked::c;
pub use pocket::linked::c::{Answer, Params};
use std::ptr::null_mut;

/// The nine slices of a call.
pub struct Slices<'a> {
    pub vertices: &'a mut [u64],
    pub lengths: &'a mut [u32],
    pub regions: &'a mut [u32],
    pub bytes: &'a mut [u8],
    pub words: &'a mut [u32],
    pub singles: &'a mut [u32],
    pub doubles: &'a mut [u64],
    pub rows: &'a mut [u32],
    pub triples: &'a mut [u64],
}

/// The oracle's parameters; a setting that is absent has `absent` for its number.
pub fn params(p: &AdaptiveParams, absent: f64) -> Params {
    let of = pocket::Params {
        tool_diameter: p.tool_diameter,
        max_engagement_deg: p.max_engagement_deg,
        step_down: p.step_down,
        top: p.top,
        bottom: p.bottom,
        stock_to_leave: p.stock_to_leave,
        safe_z: p.safe_z,
        feed: p.feed,
        plunge_feed: p.plunge_feed,
        link_feed: p.link_feed,
        helix_ramp_deg: p.helix_ramp_deg,
        helix_radius: p.helix_radius,
        chip_thinning_max: p.chip_thinning_max,
        resolution: p.resolution,
        keep_tool_down: p.keep_tool_down,
    };
    Params::new(&of, absent)
}

/// The oracle's report.
pub fn report(r: &AdaptiveReport) -> Report {
    Report {
        layers: r.layers,
        passes: r.passes,
        helix_entries: r.helix_entries,
        retracts: r.retracts,
        links: r.links,
        planned_max_engagement_deg: r.planned_max_engagement_deg,
        removed_area: r.removed_area,
        remaining_reachable_area: r.remaining_reachable_area,
        unreachable_area: r.unreachable_area,
        starting_cells: r.starting_cells,
        standing_cells: r.standing_cells,
        helix_given_up: r.helix_given_up,
        spent_budget: r.spent_budget,
        left_reachable: r.left_reachable,
    }
}

/// A report's counts, then its flags, then the bits of its floats.
pub fn numbers(r: &Report) -> [u64; 14] {
    let counts = [r.layers, r.passes, r.helix_entries, r.retracts, r.links];
    let cells = [r.starting_cells, r.standing_cells, r.helix_given_up];
    let flags = [r.spent_budget as usize, r.left_reachable as usize];
    let floats =
        [r.planned_max_engagement_deg, r.removed_area, r.remaining_reachable_area, r.unreachable_area];
    let whole = counts.into_iter().chain(cells).chain(flags).map(|v| v as u64);
    let mut all = whole.chain(floats.map(f64::to_bits));
    std::array::from_fn(|_| all.next().unwrap())
}

/// The pointer of a slice without elements is not looked at.
fn place<T>(slice: &mut [T]) -> *mut T {
    if slice.is_empty() { null_mut() } else { slice.as_mut_ptr() }
}

/// Plans a job.
pub fn adaptive_clear(params: &Params, whole: bool, lent: Slices) -> Answer {
    // Nothing is required of a job: any bits are a float, any number a length.
    unsafe {
        c::pocket_adaptive_clear(
            *params,
            whole,
            place(lent.vertices).cast(),
            lent.vertices.len(),
            place(lent.lengths),
            lent.lengths.len(),
            place(lent.regions),
            lent.regions.len(),
            place(lent.bytes),
            lent.bytes.len(),
            place(lent.words),
            lent.words.len(),
            place(lent.singles).cast(),
            lent.singles.len(),
            place(lent.doubles).cast(),
            lent.doubles.len(),
            place(lent.rows),
            lent.rows.len(),
            place(lent.triples).cast(),
            lent.triples.len(),
        )
    }
}

/// The address of the library's function.
pub fn entry() -> usize {
    c::pocket_adaptive_clear as *const () as usize
}
