//! A job planned: what is lent, and what the plan is.
use crate::job::{Job, Lent, Point, RawJob};
use crate::linked::{self, Slices};
use crate::map::Contact;
use crate::refusal::Refusal;

/// A raster. Cell (i, j), column i and row j, has number j * nx + i; `origin` is the lower left corner of cell (0, 0).
#[derive(Clone, Copy, Debug, PartialEq)]
#[repr(C)]
pub struct Grid {
    pub origin: Point,
    pub cell: f64,
    pub nx: usize,
    pub ny: usize,
}

impl Grid {
    /// How many cells it has.
    pub fn cells(&self) -> usize {
        self.nx.saturating_mul(self.ny)
    }

    /// The middle of a cell.
    pub fn center(&self, column: usize, row: usize) -> Point {
        let along = |origin: f64, k: usize| origin + (k as f64 + 0.5) * self.cell;
        Point::new(along(self.origin.x, column), along(self.origin.y, row))
    }
}

/// Areas are in square mm, of whole cells.
#[derive(Clone, Copy, Debug, Default, PartialEq)]
#[repr(C)]
pub struct Report {
    pub layers: usize,
    pub passes: usize,
    pub helix_entries: usize,
    pub retracts: usize,
    pub links: usize,
    pub planned_max_engagement_deg: f64,
    pub removed_area: f64,
    pub remaining_reachable_area: f64,
    pub unreachable_area: f64,
    pub starting_cells: usize,
    pub standing_cells: usize,
    pub helix_given_up: usize,
    /// Planning ended because its work was spent.
    pub spent_budget: bool,
    /// More than 0.05 of the starting area is left reachable.
    pub left_reachable: bool,
}

/// A point of a cut, and the angle of contact there in radians; at the first point it is 0, unmeasured.
#[derive(Clone, Copy, Debug, PartialEq)]
pub struct Cut {
    pub at: Point,
    pub angle: f64,
}

#[derive(Clone, Debug, PartialEq)]
pub enum Chunk {
    Helix { center: Point, radius: f64 },
    Plunge(Point),
    Link(Point),
    Cut(Vec<Cut>),
}

impl Chunk {
    /// Where it leaves the tool; a helix ends at its east.
    pub fn end(&self) -> Option<Point> {
        match self {
            Chunk::Helix { center, radius } => Some(Point::new(center.x + radius, center.y)),
            Chunk::Plunge(to) | Chunk::Link(to) => Some(*to),
            Chunk::Cut(cuts) => cuts.last().map(|cut| cut.at),
        }
    }

    /// The greatest contact of a cut, of so many samples; none of other chunks, nor where nothing was measured.
    pub fn contact(&self, samples: usize) -> Option<Contact> {
        let Chunk::Cut(cuts) = self else { return None };
        let angle = cuts.iter().skip(1).map(|cut| cut.angle).max_by(f64::total_cmp)?;
        Contact::of_angle(angle, samples)
    }
}

#[derive(Clone, Debug, PartialEq)]
pub struct Plan {
    pub report: Report,
    pub grid: Grid,
    /// The final stock map, a byte a cell: 1 stock, 0 none.
    pub map: Vec<u8>,
    /// Kind, first triple, count.
    pub rows: Vec<[u32; 3]>,
    pub triples: Vec<[f64; 3]>,
}

impl Plan {
    /// The list, chunk by chunk.
    pub fn chunks(&self) -> impl Iterator<Item = Chunk> {
        self.rows.iter().map(|&[kind, first, count]| {
            let triples = &self.triples[first as usize..][..count as usize];
            let [x, y, value] = triples[0];
            let at = Point::new(x, y);
            match kind {
                1 => Chunk::Helix { center: at, radius: value },
                2 => Chunk::Plunge(at),
                3 => Chunk::Link(at),
                _ => Chunk::Cut(triples.iter().map(cut).collect()),
            }
        })
    }

    /// The greatest contact of all cuts, of so many samples; none where nothing was measured.
    pub fn greatest_contact(&self, samples: usize) -> Option<Contact> {
        self.chunks().filter_map(|chunk| chunk.contact(samples)).max_by_key(Contact::hits)
    }
}

fn cut(&[x, y, angle]: &[f64; 3]) -> Cut {
    Cut { at: Point::new(x, y), angle }
}

/// Most rows and triples that are ever lent.
pub const MOST_ROWS: usize = 1 << 20;
pub const MOST_TRIPLES: usize = 1 << 24;

/// Rows and triples that are lent first: plenty for most plans. A raster's triples grow with its cells.
const FIRST_ROWS: usize = 1 << 14;
const FIRST_TRIPLES: usize = 1 << 16;

/// Largest raster, as in question 14.
const MOST_SIDE: usize = 4096;
const MOST_CELLS: usize = 1 << 20;

impl Job {
    pub fn plan(&self) -> Result<Plan, Refusal> {
        self.raw().plan()
    }
}

impl RawJob {
    /// Cells of the raster; 0 where the library refuses the job before it looks at what is lent.
    pub fn cells(&self) -> usize {
        let fits = |g: &Grid| g.nx <= MOST_SIDE && g.ny <= MOST_SIDE && g.cells() <= MOST_CELLS;
        self.grid().filter(fits).map_or(0, |g| g.cells())
    }

    pub fn plan(&self) -> Result<Plan, Refusal> {
        self.plan_from(FIRST_ROWS, FIRST_TRIPLES.max(self.cells()))
    }

    /// Plans with so many rows and triples, one at least, and with twice as many while 16 or 17 says that they were too
    /// few: a plan that fits is the same however many are lent.
    fn plan_from(&self, rows: usize, triples: usize) -> Result<Plan, Refusal> {
        let most_rows = self.lent.rows.unwrap_or(MOST_ROWS).min(MOST_ROWS);
        let most_triples = self.lent.triples.unwrap_or(MOST_TRIPLES).min(MOST_TRIPLES);
        let (mut rows, mut triples) = (rows.min(most_rows), triples.min(most_triples));
        loop {
            match self.plan_with(rows, triples) {
                Err(Refusal { number: 16 }) if triples < most_triples => {
                    triples = (2 * triples).min(most_triples)
                }
                Err(Refusal { number: 17 }) if rows < most_rows => rows = (2 * rows).min(most_rows),
                answer => return answer,
            }
        }
    }

    /// Plans with so many rows and triples.
    fn plan_with(&self, rows: usize, triples: usize) -> Result<Plan, Refusal> {
        let [bytes, words, singles, doubles] = self.workspace();
        let mut map = vec![0; bytes];
        let mut list = List { rows: vec![[0; 3]; rows], triples: vec![[0.0; 3]; triples] };
        let lent = Slices {
            bytes: &mut map,
            words: &mut vec![0; words],
            singles: &mut vec![0.0; singles],
            doubles: &mut vec![0.0; doubles],
            rows: list.rows.as_flattened_mut(),
            triples: list.triples.as_flattened_mut(),
        };
        let (vertices, lengths, regions) = (&self.vertices, &self.lengths, &self.regions);
        let report = linked::adaptive_clear(&self.params, self.whole, vertices, lengths, regions, lent)?;
        let grid = self.grid().expect("a job that is planned has a pocket");
        map.truncate(grid.cells());
        map.shrink_to_fit();
        list.trim();
        Ok(Plan { report, grid, map, rows: list.rows, triples: list.triples })
    }

    /// Lengths of the workspace. More than is needed is of no use and not lent.
    fn workspace(&self) -> [usize; 4] {
        let Lent { bytes, words, singles, doubles, .. } = self.lent;
        let needed = workspace_needed(self.cells());
        let lent = [bytes, words, singles, doubles];
        std::array::from_fn(|k| lent[k].unwrap_or(needed[k]).min(needed[k]))
    }
}

/// Lengths of the workspace for a raster of n cells: bytes, words, singles, doubles.
pub fn workspace_needed(n: usize) -> [usize; 4] {
    [8 * n, 32 * n + 8192, 2 * n, 32 * n + 8192]
}

struct List {
    rows: Vec<[u32; 3]>,
    triples: Vec<[f64; 3]>,
}

impl List {
    /// Drops the zeros behind the list: a row has a kind above 0.
    fn trim(&mut self) {
        let rows = self.rows.iter().position(|row| row[0] == 0).unwrap_or(self.rows.len());
        self.rows.truncate(rows);
        self.rows.shrink_to_fit();
        let triples = self.rows.last().map_or(0, |&[_, first, count]| first as usize + count as usize);
        self.triples.truncate(triples);
        self.triples.shrink_to_fit();
    }
}

#[cfg(test)]
mod tests {
    use crate::{Job, Params, Refusal, Shape};

    #[test]
    fn more_is_lent_until_the_plan_fits() {
        let square = Shape::new(&[[0.0, 0.0], [9.0, 0.0], [9.0, 9.0], [0.0, 9.0]]);
        let params = Params { max_engagement_deg: 60.0, resolution: Some(0.1), ..Params::default() };
        let mut raw = Job::new(params, square).raw();
        let plan = raw.plan().unwrap();
        assert_eq!(raw.plan_from(1, 1).as_ref(), Ok(&plan));
        (raw.lent.rows, raw.lent.triples) = (Some(plan.rows.len() - 1), None);
        assert_eq!(raw.plan_from(1, 1), Err(Refusal { number: 17 }));
        (raw.lent.rows, raw.lent.triples) = (None, Some(plan.triples.len() - 1));
        assert_eq!(raw.plan_from(1, 1), Err(Refusal { number: 16 }));
    }
}
