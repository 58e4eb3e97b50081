//! The plan as one web page that needs no network: its picture, and a replay of the list row by row on the map.
use crate::picture;
use crate::scene::Scene;
use crate::words;
use pocket::{Chunk, Cut, Log, Map, Point, Refusal};
use std::fmt::Write;

const PAGE: &str = include_str!("page.html");

/// The page of a plan. The replay is by the library's own leaves, whose ranges a plan's numbers are within.
pub fn page(scene: &Scene) -> String {
    let parts = [
        ("title", picture::escaped(&scene.name)),
        ("summary", picture::escaped(&summary(scene))),
        ("picture", picture::svg(scene)),
        ("report", report(scene)),
        ("plan", data(scene).expect("a plan is within the leaves' ranges")),
    ];
    let mut page = PAGE.to_string();
    for (name, part) in parts {
        page = page.replacen(&format!("{{{{{name}}}}}"), &part, 2);
    }
    page
}

fn summary(scene: &Scene) -> String {
    let p = &scene.job.params;
    let contact = format!("contact at most {} degrees", p.max_engagement_deg);
    format!("Tool {} mm, {contact}; in each layer {}.", p.tool_diameter, words::moves(scene))
}

fn report(scene: &Scene) -> String {
    let row = |(name, fact): (&str, String)| {
        format!("<tr><th>{name}</th><td>{}</td></tr>\n", picture::escaped(&fact))
    };
    words::facts(scene).into_iter().map(row).collect()
}

/// What the page's script replays, as JSON of numbers and colours alone.
fn data(scene: &Scene) -> Result<String, Refusal> {
    let (p, grid) = (&scene.job.params, &scene.plan.grid);
    let (step, colours) = picture::steps(p.max_engagement_deg);
    let colours: Vec<String> = colours.iter().map(|c| format!("\"{c}\"")).collect();
    let loops: Vec<String> = scene.pocket.loops().map(|l| list(l.iter().map(|p| spot(*p)))).collect();
    let stock = (0..).zip(&scene.start.bytes).filter(|(_, byte)| **byte == 1).map(|(k, _)| k);
    let fields = [
        ("nx", grid.nx.to_string()),
        ("ny", grid.ny.to_string()),
        ("cell", grid.cell.to_string()),
        ("origin", spot(grid.origin)),
        ("radius", (p.tool_diameter / 2.0).to_string()),
        ("limit", p.max_engagement_deg.to_string()),
        ("step", step.to_string()),
        ("starting", scene.plan.report.starting_cells.to_string()),
        ("colours", list(colours)),
        ("loops", list(loops)),
        ("stock", runs(stock)),
        ("rows", rows(scene)?),
    ];
    Ok(object(fields))
}

fn rows(scene: &Scene) -> Result<String, Refusal> {
    let mut replay = Replay::new(scene);
    let rows: Result<Vec<String>, Refusal> = scene.plan.chunks().map(|chunk| replay.row(&chunk)).collect();
    Ok(list(rows?))
}

/// The map and the tool's place between two rows.
struct Replay {
    map: Map,
    log: Log,
    radius: f64,
    samples: usize,
    place: Option<Point>,
}

impl Replay {
    fn new(scene: &Scene) -> Replay {
        let (map, params) = (scene.start.clone(), &scene.job.params);
        let log = Log::of(&map);
        Replay { map, log, radius: params.tool_diameter / 2.0, samples: params.samples(), place: None }
    }

    fn row(&mut self, chunk: &Chunk) -> Result<String, Refusal> {
        let cells = self.clear(chunk)?;
        let (kind, points) = match chunk {
            Chunk::Helix { center, radius } => (1, vec![triple(*center, *radius)]),
            Chunk::Plunge(to) => (2, vec![triple(*to, 0.0)]),
            Chunk::Link(to) => (3, vec![triple(*to, 0.0)]),
            Chunk::Cut(cuts) => (4, cuts.iter().map(|c| triple(c.at, c.angle)).collect()),
        };
        let contact = chunk.contact(self.samples);
        let from = self.place.map_or("null".into(), spot);
        self.place = chunk.end().or(self.place);
        let to = self.place.map_or("null".into(), spot);
        Ok(object([
            ("kind", kind.to_string()),
            ("from", from),
            ("to", to),
            ("points", list(points)),
            ("contact", contact.map_or("null".into(), |c| format!("[{},{}]", c.hits(), c.samples()))),
            ("removed", cells.len().to_string()),
            ("cells", runs(cells)),
        ]))
    }

    /// Clears what a row clears; the numbers of these cells, in order.
    fn clear(&mut self, chunk: &Chunk) -> Result<Vec<usize>, Refusal> {
        match chunk {
            Chunk::Helix { center, radius } => self.bore(*center, radius + self.radius),
            Chunk::Cut(cuts) => self.cut(cuts),
            Chunk::Plunge(_) | Chunk::Link(_) => Ok(Vec::new()),
        }
    }

    fn bore(&mut self, center: Point, radius: f64) -> Result<Vec<usize>, Refusal> {
        let before = self.map.bytes.clone();
        self.map.clear_disk(center, radius)?;
        let changed = before.iter().zip(&self.map.bytes).enumerate().filter(|(_, (was, is))| was != is);
        Ok(changed.map(|(k, _)| k).collect())
    }

    fn cut(&mut self, cuts: &[Cut]) -> Result<Vec<usize>, Refusal> {
        let mut cells = Vec::new();
        for step in cuts.windows(2) {
            self.log.used = 0;
            self.map.clear_crescent(step[0].at, step[1].at, self.radius, &mut self.log)?;
            cells.extend(self.log.cells().iter().map(|&k| k as usize));
        }
        cells.sort_unstable();
        Ok(cells)
    }
}

/// Cells in order, as runs: the gap behind the run before, and how many.
fn runs(cells: impl IntoIterator<Item = usize>) -> String {
    let mut found: Vec<[usize; 2]> = Vec::new();
    for k in cells {
        match found.last_mut() {
            Some(run) if run[1] == k => run[1] += 1,
            _ => found.push([k, k + 1]),
        }
    }
    let mut behind = 0;
    list(found.iter().flat_map(|&[from, to]| {
        let gap = from - behind;
        behind = to;
        [gap.to_string(), (to - from).to_string()]
    }))
}

fn spot(p: Point) -> String {
    format!("[{},{}]", words::decimal(p.x, 4), words::decimal(p.y, 4))
}

fn triple(p: Point, value: f64) -> String {
    format!("[{},{},{}]", words::decimal(p.x, 4), words::decimal(p.y, 4), words::decimal(value, 5))
}

fn list(items: impl IntoIterator<Item = String>) -> String {
    format!("[{}]", items.into_iter().collect::<Vec<_>>().join(","))
}

fn object<'a>(fields: impl IntoIterator<Item = (&'a str, String)>) -> String {
    let mut s = String::from("{");
    for (k, (name, value)) in fields.into_iter().enumerate() {
        let comma = if k > 0 { "," } else { "" };
        let _ = write!(s, "{comma}\"{name}\":{value}");
    }
    s + "}"
}
