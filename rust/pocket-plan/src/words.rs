//! Numbers and a report in words.
use crate::scene::Scene;

/// A whole number, its thousands parted.
pub fn count(n: usize) -> String {
    let digits = n.to_string();
    let mut s = String::new();
    for (k, c) in digits.chars().enumerate() {
        if k > 0 && (digits.len() - k).is_multiple_of(3) {
            s.push(',');
        }
        s.push(c);
    }
    s
}

/// So many of a thing, by its name for one.
pub fn many(n: usize, one: &str) -> String {
    let plural = match one.strip_suffix("ss").or(one.strip_suffix("x")) {
        Some(_) => "es",
        None => "s",
    };
    format!("{} {one}{}", count(n), if n == 1 { "" } else { plural })
}

/// A number with this many decimals at most, and no needless zero.
pub fn decimal(v: f64, decimals: usize) -> String {
    let s = format!("{v:.decimals$}");
    if s.contains('.') { s.trim_end_matches('0').trim_end_matches('.').into() } else { s }
}

/// An area in square mm, and what part it is of another one.
fn area(v: f64, of: f64) -> String {
    let share = if of > 0.0 { format!(" ({} %)", decimal(100.0 * v / of, 1)) } else { String::new() };
    format!("{} mm2{share}", decimal(v, 2))
}

/// The report, a line a fact.
pub fn report(scene: &Scene) -> String {
    facts(scene).iter().map(|(name, fact)| format!("  {name:14}  {fact}\n")).collect()
}

/// What the report tells: its names, and what is told under each.
pub fn facts(scene: &Scene) -> Vec<(&'static str, String)> {
    let (p, plan) = (&scene.job.params, &scene.plan);
    let (r, grid) = (&plan.report, &plan.grid);
    let starting = scene.starting_area();
    let layers =
        format!("{} of {} mm at most, Z {} to {} mm", many(r.layers, "layer"), p.step_down, p.top, p.bottom);
    let mut facts = vec![
        ("tool", format!("{} mm, {} mm left on walls", p.tool_diameter, p.stock_to_leave)),
        ("contact", contact(scene)),
        ("depth", layers),
        (
            "starting stock",
            format!("{starting} mm2, {}", many(r.starting_cells, "cell"), starting = decimal(starting, 2)),
        ),
        ("removed", area(r.removed_area, starting)),
        ("left in reach", area(r.remaining_reachable_area, starting)),
        ("out of reach", area(r.unreachable_area, starting)),
        ("in each layer", moves(scene)),
        ("list", format!("{}, {}", many(plan.rows.len(), "row"), many(plan.triples.len(), "triple"))),
        ("raster", format!("{} by {} cells of {} mm", count(grid.nx), count(grid.ny), decimal(grid.cell, 6))),
    ];
    facts.extend(warnings(scene).map(|warning| ("note", warning)));
    facts
}

/// The greatest contact, as its angle and as points of the rim.
fn contact(scene: &Scene) -> String {
    let (most, limit) = (scene.plan.report.planned_max_engagement_deg, scene.job.params.max_engagement_deg);
    let points = rim_points(scene).map_or(String::new(), |points| format!(": {points}"));
    format!("at most {} of {limit} degrees{points}", decimal(most, 2))
}

/// The points of the rim that the greatest contact hits, of those sampled; none where nothing was measured.
pub fn rim_points(scene: &Scene) -> Option<String> {
    let contact = scene.plan.greatest_contact(scene.job.params.samples())?;
    Some(format!("{} of {} rim points", count(contact.hits()), count(contact.samples())))
}

/// What the tool does in a layer.
pub fn moves(scene: &Scene) -> String {
    let r = &scene.plan.report;
    let parts =
        [(r.passes, "pass"), (r.links, "link"), (r.retracts, "plunge"), (r.helix_entries, "helix entry")];
    parts.map(|(n, one)| many(n, one)).join(", ").replace("entrys", "entries")
}

fn warnings(scene: &Scene) -> impl Iterator<Item = String> {
    let r = &scene.plan.report;
    let given_up =
        format!("{} where stock has no room for a helix entry by this tool", many(r.helix_given_up, "place"));
    let notes = [
        (r.starting_cells == 0, "there is no stock to cut".to_string()),
        (r.helix_given_up > 0, given_up),
        (r.spent_budget, "planning ended early, its work was spent: a coarser resolution needs less".into()),
        (r.left_reachable, "more than 5 % of the starting stock is left within the tool's reach".into()),
    ];
    notes.into_iter().filter(|(told, _)| *told).map(|(_, note)| note)
}
