//! A job: parameters, pocket and stock, and the sizes of what is lent.
use crate::plan::{Grid, MOST_ROWS, MOST_TRIPLES};
use std::f64::consts::PI;

#[derive(Clone, Copy, Debug, Default, PartialEq)]
#[repr(C)]
pub struct Point {
    pub x: f64,
    pub y: f64,
}

impl Point {
    pub const fn new(x: f64, y: f64) -> Point {
        Point { x, y }
    }
}

/// The parameters of `AdaptiveParams`.
#[derive(Clone, Copy, Debug, PartialEq)]
pub struct Params {
    pub tool_diameter: f64,
    pub max_engagement_deg: f64,
    pub step_down: f64,
    pub top: f64,
    pub bottom: f64,
    pub stock_to_leave: f64,
    pub safe_z: f64,
    pub feed: f64,
    pub plunge_feed: f64,
    pub link_feed: f64,
    pub helix_ramp_deg: f64,
    pub helix_radius: Option<f64>,
    pub chip_thinning_max: Option<f64>,
    pub resolution: Option<f64>,
    pub keep_tool_down: bool,
}

impl Params {
    /// The Rust's typical parameters: an engagement of 40 degrees, a step-down of one diameter.
    pub fn new(tool_diameter: f64, top: f64, bottom: f64, feed: f64) -> Params {
        Params {
            tool_diameter,
            max_engagement_deg: 40.0,
            step_down: tool_diameter,
            top,
            bottom,
            stock_to_leave: 0.0,
            safe_z: top + 5.0,
            feed,
            plunge_feed: feed * 0.3,
            link_feed: feed,
            helix_ramp_deg: 2.0,
            helix_radius: None,
            chip_thinning_max: None,
            resolution: None,
            keep_tool_down: true,
        }
    }

    /// Side of a raster's cell.
    pub fn cell(&self) -> f64 {
        self.resolution.unwrap_or(self.tool_diameter / 80.0)
    }

    /// How many samples of the rim a plan's contacts have: one for each half cell, 64 to 2,048.
    pub fn samples(&self) -> usize {
        let rim = 4.0 * PI * (self.tool_diameter / 2.0) / self.cell();
        (rim.ceil() as usize).clamp(64, 2048)
    }
}

impl Default for Params {
    fn default() -> Params {
        Params::new(6.0, 0.0, -6.0, 1000.0)
    }
}

/// A region: its outer loop, and the islands in it.
#[derive(Clone, Debug, Default, PartialEq)]
pub struct Shape {
    pub outer: Vec<Point>,
    pub islands: Vec<Vec<Point>>,
}

impl Shape {
    pub fn new(outer: &[[f64; 2]]) -> Shape {
        Shape { outer: points(outer), islands: Vec::new() }
    }

    pub fn island(mut self, island: &[[f64; 2]]) -> Shape {
        self.islands.push(points(island));
        self
    }

    pub fn loops(&self) -> impl Iterator<Item = &Vec<Point>> {
        std::iter::once(&self.outer).chain(&self.islands)
    }
}

fn points(from: &[[f64; 2]]) -> Vec<Point> {
    from.iter().map(|&[x, y]| Point { x, y }).collect()
}

#[derive(Clone, Debug, PartialEq)]
pub struct Job {
    pub params: Params,
    pub pocket: Shape,
    /// None: all of the pocket is stock.
    pub stock: Option<Vec<Shape>>,
    /// At most so many rows and triples are lent.
    pub most_rows: usize,
    pub most_triples: usize,
}

impl Job {
    pub fn new(params: Params, pocket: Shape) -> Job {
        Job { params, pocket, stock: None, most_rows: MOST_ROWS, most_triples: MOST_TRIPLES }
    }

    /// The job as the library takes it.
    pub fn raw(&self) -> RawJob {
        let mut raw = RawJob::new(self.params);
        raw.whole = self.stock.is_none();
        raw.lent.rows = Some(self.most_rows);
        raw.lent.triples = Some(self.most_triples);
        raw.push(&self.pocket);
        self.stock.iter().flatten().for_each(|shape| raw.push(shape));
        raw
    }
}

/// How much is lent of each slice. None: of the workspace as much as is needed, of rows and triples as many as
/// `MOST_ROWS` and `MOST_TRIPLES` where the plan needs them.
#[derive(Clone, Copy, Debug, Default, PartialEq, Eq)]
pub struct Lent {
    pub bytes: Option<usize>,
    pub words: Option<usize>,
    pub singles: Option<usize>,
    pub doubles: Option<usize>,
    pub rows: Option<usize>,
    pub triples: Option<usize>,
}

/// A job as the library takes it; its lengths need not add up.
#[derive(Clone, Debug, PartialEq)]
pub struct RawJob {
    pub params: Params,
    /// All of the pocket is stock. Else the regions after the first are the stock.
    pub whole: bool,
    /// x, y of each vertex, the pocket's loops first.
    pub vertices: Vec<f64>,
    /// Vertices of each loop.
    pub lengths: Vec<u32>,
    /// Loops of each region, the pocket first.
    pub regions: Vec<u32>,
    pub lent: Lent,
}

impl RawJob {
    /// A job without regions.
    pub fn new(params: Params) -> RawJob {
        RawJob {
            params,
            whole: true,
            vertices: Vec::new(),
            lengths: Vec::new(),
            regions: Vec::new(),
            lent: Lent::default(),
        }
    }

    fn push(&mut self, shape: &Shape) {
        self.regions.push(count(shape.islands.len() + 1));
        for points in shape.loops() {
            self.lengths.push(count(points.len()));
            self.vertices.extend(points.iter().flat_map(|p| [p.x, p.y]));
        }
    }

    /// The regions, the pocket first, where the lengths add up to the vertices and no region is without a loop.
    pub fn shapes(&self) -> Option<Vec<Shape>> {
        let (points, odd) = self.vertices.as_chunks::<2>();
        let mut points = points.iter().map(|&[x, y]| Point { x, y });
        let mut lengths = self.lengths.iter();
        let mut shapes = Vec::new();
        for &loops in &self.regions {
            let lengths: Vec<u32> = lengths.by_ref().take(loops as usize).copied().collect();
            if lengths.len() != loops as usize {
                return None;
            }
            let taken = lengths.iter().map(|&n| take(&mut points, n));
            let mut loops = taken.collect::<Option<Vec<_>>>()?.into_iter();
            shapes.push(Shape { outer: loops.next()?, islands: loops.collect() });
        }
        let all = odd.is_empty() && points.next().is_none() && lengths.next().is_none();
        all.then_some(shapes)
    }

    /// The raster that the job is planned on, by the bounds of the pocket's outer loop. None where there is no such
    /// loop. The library refuses a raster that is too large, and one of a cell that is none.
    pub fn grid(&self) -> Option<Grid> {
        let (points, _) = self.vertices.as_chunks::<2>();
        let length = *self.lengths.first()? as usize;
        let outer = points.get(..length)?;
        let bounds = |k: usize| {
            let along = || outer.iter().map(|p| p[k]);
            (along().fold(f64::INFINITY, f64::min), along().fold(f64::NEG_INFINITY, f64::max))
        };
        let cell = self.params.cell();
        let margin = 2.0 * cell;
        let side =
            |(lo, hi): (f64, f64)| (((hi - lo + 2.0 * margin) / cell).ceil() as usize).saturating_add(1);
        let (x, y) = (bounds(0), bounds(1));
        Some(Grid { origin: Point::new(x.0 - margin, y.0 - margin), cell, nx: side(x), ny: side(y) })
    }
}

/// A loop of as many points, where there are so many.
fn take(points: &mut impl Iterator<Item = Point>, length: u32) -> Option<Vec<Point>> {
    let taken: Vec<Point> = points.take(length as usize).collect();
    (taken.len() == length as usize).then_some(taken)
}

/// A length; one that no u32 has is refused by question 13, as `u32::MAX` is.
fn count(length: usize) -> u32 {
    u32::try_from(length).unwrap_or(u32::MAX)
}
