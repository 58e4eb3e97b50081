//! A job that was planned, with all that its outputs show.
use pocket::{Grid, Map, Plan, RawJob, Refusal, Shape};

pub struct Scene {
    /// The job file's name.
    pub name: String,
    pub job: RawJob,
    pub pocket: Shape,
    /// The stock regions; none: all of the pocket is stock.
    pub stock: Option<Vec<Shape>>,
    pub start: Map,
    pub plan: Plan,
}

impl Scene {
    /// None where the job's lengths do not add up, or its map is refused: no job that is planned.
    pub fn new(name: &str, job: RawJob, plan: Plan) -> Option<Scene> {
        let mut shapes = job.shapes()?.into_iter();
        let pocket = shapes.next()?;
        let stock = (!job.whole).then(|| shapes.collect::<Vec<_>>());
        let start = starting_stock(plan.grid, &pocket, stock.as_deref()).ok()?;
        Some(Scene { name: name.into(), job, pocket, stock, start, plan })
    }

    /// The area of the starting stock, in square mm.
    pub fn starting_area(&self) -> f64 {
        let cell = self.plan.grid.cell;
        self.plan.report.starting_cells as f64 * cell * cell
    }
}

/// The pocket's cells, those of the stock regions where there is a list of them.
pub fn starting_stock(grid: Grid, pocket: &Shape, stock: Option<&[Shape]>) -> Result<Map, Refusal> {
    let mut map = Map::new(grid)?;
    map.fill_region(pocket)?;
    if let Some(regions) = stock {
        let mut filled = Map::new(grid)?;
        regions.iter().try_for_each(|region| filled.fill_region(region))?;
        map.bytes.iter_mut().zip(&filled.bytes).for_each(|(byte, other)| *byte &= other);
    }
    Ok(map)
}
