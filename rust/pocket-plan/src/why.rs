//! Why a job is refused: the value that fails the question, and what would help.
use crate::scene::starting_stock;
use crate::words::{count, decimal};
use pocket::{MOST_ROWS, MOST_TRIPLES, Map, Params, RawJob, Refusal, workspace_needed};

/// The refusal in words. The number is the library's; what is named here only explains it.
pub fn why(job: &RawJob, refusal: Refusal) -> String {
    let failed = value(job, refusal.number).map_or(String::new(), |value| format!(": {value}"));
    format!("{refusal}{failed}")
}

fn value(job: &RawJob, number: u32) -> Option<String> {
    let p = &job.params;
    match number {
        1..=11 => Some(parameter(p, number)),
        12 => span(p),
        13 => loops(job),
        14 => raster(job),
        15 => lent(job),
        16 => Some(too_few("triples", job.lent.triples, MOST_TRIPLES)),
        17 => Some(too_few("rows", job.lent.rows, MOST_ROWS)),
        18 => room(job),
        _ => None,
    }
}

fn positive(v: f64) -> bool {
    v.is_finite() && v > 0.0
}

/// Questions 1 to 11.
fn parameter(p: &Params, number: u32) -> String {
    let given = |name: &str, v: Option<f64>, unit: &str| format!("{name} is {}{unit}", v.unwrap_or(f64::NAN));
    match number {
        1 => format!("diameter is {} mm", p.tool_diameter),
        2 => format!("engagement is {} degrees", p.max_engagement_deg),
        3 => format!("step_down is {} mm", p.step_down),
        4 => format!("top is {} mm, bottom is {} mm", p.top, p.bottom),
        5 => format!("leave is {} mm", p.stock_to_leave),
        6 => format!("safe_z is {} mm, top is {} mm", p.safe_z, p.top),
        7 => {
            let feeds = [("feed", p.feed), ("plunge_feed", p.plunge_feed), ("link_feed", p.link_feed)];
            let wrong = feeds.iter().filter(|(_, v)| !positive(*v));
            wrong.map(|(name, v)| format!("{name} is {v} mm/min")).collect::<Vec<_>>().join(", ")
        }
        8 => format!("ramp is {} degrees", p.helix_ramp_deg),
        9 => given("helix", p.helix_radius, " mm"),
        10 => given("chip", p.chip_thinning_max, ""),
        _ => {
            let most = format!("diameter/60 is {} mm", decimal(p.tool_diameter / 60.0, 6));
            format!("{}, {most}", given("resolution", p.resolution, " mm"))
        }
    }
}

/// Question 12.
fn span(p: &Params) -> Option<String> {
    let d = p.tool_diameter;
    let steps = (p.top - p.bottom) / p.step_down;
    let helix = p.helix_radius.unwrap_or(0.0);
    let parts = [
        (!(0.1..=100.0).contains(&d), format!("diameter is {d} mm; the planner serves 0.1 to 100 mm")),
        (
            p.cell() < d / 1000.0,
            format!(
                "the cell is {} mm; give a resolution from {} to {} mm, or none",
                p.cell(),
                d / 1000.0,
                d / 60.0
            ),
        ),
        (p.stock_to_leave > 100.0, format!("leave is {} mm; give at most 100 mm", p.stock_to_leave)),
        (helix > 1000.0, format!("helix is {helix} mm; give at most 1000 mm, or none")),
        (
            steps > 10_000.0,
            format!("(top - bottom)/step_down is {steps}; give a larger step_down or a smaller depth"),
        ),
    ];
    parts.into_iter().find(|(failed, _)| *failed).map(|(_, text)| text)
}

/// A loop's name, by its region's and its own place.
fn loop_name(region: usize, k: usize) -> String {
    let region = if region == 0 { "the pocket".into() } else { format!("stock region {region}") };
    if k == 0 { format!("the outer loop of {region}") } else { format!("island {k} of {region}") }
}

/// Question 13, its parts in order.
fn loops(job: &RawJob) -> Option<String> {
    let mut lengths = job.lengths.iter();
    for (region, &loops) in job.regions.iter().enumerate() {
        if loops == 0 {
            let name = loop_name(region, 0);
            return Some(format!("{name} is missing; give its length in `pocket` or `region`"));
        }
        for (k, &length) in lengths.by_ref().take(loops as usize).enumerate() {
            if length < 3 {
                return Some(format!("{} has {length} vertices; a loop has 3 or more", loop_name(region, k)));
            }
        }
    }
    let islands = job.regions.iter().map(|n| n.saturating_sub(1)).max().unwrap_or(0);
    let regions = if job.whole { 0 } else { job.regions.len().saturating_sub(1) };
    let vertices = job.vertices.len() / 2;
    let sum: u64 = job.lengths.iter().map(|&n| u64::from(n)).sum();
    let far = job.vertices.iter().position(|v| !v.is_finite() || v.abs() > 10_000.0);
    if islands > 64 {
        Some(format!("a region has {islands} islands; it may have 64: plan it in parts"))
    } else if regions > 16 {
        Some(format!("there are {regions} stock regions; there may be 16: join some"))
    } else if vertices > 4096 {
        Some(format!("there are {} vertices; there may be 4,096: round curves by fewer", count(vertices)))
    } else if sum != vertices as u64 {
        Some(format!("the loops have {sum} vertices by their lengths, and `verts` has {vertices}"))
    } else {
        let k = far?;
        let axis = ["x", "y"][k % 2];
        let from = "measure from a nearer zero";
        Some(format!("{axis} of vertex {} is {} mm; {from}", k / 2 + 1, job.vertices[k]))
    }
}

/// Question 14.
fn raster(job: &RawJob) -> Option<String> {
    let grid = job.grid()?;
    let (sides, cells) = (format!("{} by {}", count(grid.nx), count(grid.ny)), count(grid.cells()));
    let coarsest = decimal(job.params.tool_diameter / 60.0, 6);
    Some(format!(
        "the raster is {sides} cells of {} mm, {cells} in all; give a coarser resolution (up to {coarsest} mm for this tool), a larger tool, or a part of the pocket",
        decimal(grid.cell, 6)
    ))
}

/// Question 15.
fn lent(job: &RawJob) -> Option<String> {
    let lent = [job.lent.bytes, job.lent.words, job.lent.singles, job.lent.doubles];
    let names = ["lent_bytes", "lent_u32", "lent_f32", "lent_f64"];
    let needed = workspace_needed(job.cells());
    let short = (0..4).find(|&k| lent[k].is_some_and(|lent| lent < needed[k]))?;
    let (name, lent, needed) = (names[short], count(lent[short]?), count(needed[short]));
    Some(format!("{name} is {lent} and {needed} are needed; leave {name} out to lend as much"))
}

/// Questions 16 and 17.
fn too_few(name: &str, lent: Option<usize>, most: usize) -> String {
    match lent.filter(|lent| *lent <= most) {
        Some(lent) => {
            format!("the plan needs more than {} {name}; raise lent_{name} or leave it out", count(lent))
        }
        None => {
            format!(
                "the plan needs more than {} {name}; a coarser resolution or a larger engagement needs fewer",
                count(most)
            )
        }
    }
}

/// Question 18: how wide the pocket is around its stock, and what an entry takes.
fn room(job: &RawJob) -> Option<String> {
    let p = &job.params;
    let (d, leave) = (p.tool_diameter, p.stock_to_leave);
    if let Some(helix) = p.helix_radius.filter(|radius| *radius < 0.1 * d) {
        let least = decimal(0.1 * d, 6);
        return Some(format!(
            "helix is {helix} mm, and an entry has a radius of at least {least} mm, a tenth of the tool"
        ));
    }
    let needs = 1.2 * d + 2.0 * leave + 4.0 * p.cell();
    let widest = widest(job)?;
    let told = format!("the pocket is about {} mm wide at its widest place with stock", decimal(widest, 2));
    let entry = format!(
        "a helix to enter by takes about {} mm: 1.2 times {d} mm of tool, twice {leave} mm to leave, 4 cells",
        decimal(needs, 2)
    );
    let help = "a smaller tool would help, or a side that is open";
    Some(if widest < needs {
        format!("{told}, and {entry}; {help}")
    } else {
        format!("{told}, but the tool reaches no stock; {help}")
    })
}

/// Twice the farthest from the walls that a cell of the starting stock lies.
fn widest(job: &RawJob) -> Option<f64> {
    let shapes = job.shapes()?;
    let (pocket, stock) = shapes.split_first()?;
    let mut inside = Map::new(job.grid()?).ok()?;
    inside.fill_region(pocket).ok()?;
    let start = starting_stock(job.grid()?, pocket, (!job.whole).then_some(stock)).ok()?;
    let walls = inside.distance_map(0).ok()?.distances;
    let farthest = start.bytes.iter().zip(walls).filter(|(byte, _)| **byte == 1).map(|(_, far)| far);
    Some(2.0 * farthest.fold(0.0, f64::max) * job.params.cell())
}
