//! A stock map with the library's leaves.
use crate::job::{Point, Shape};
use crate::linked;
use crate::plan::Grid;
use crate::refusal::Refusal;

/// A byte a cell, 1 where there is stock.
#[derive(Clone, Debug, PartialEq)]
pub struct Map {
    pub grid: Grid,
    pub bytes: Vec<u8>,
}

/// The numbers of cells that crescents cleared, in order: the first `used` entries.
#[derive(Clone, Debug, PartialEq, Eq)]
pub struct Log {
    pub entries: Vec<u32>,
    pub used: usize,
}

impl Log {
    /// An empty log with room for every cell of a map.
    pub fn of(map: &Map) -> Log {
        Log { entries: vec![0; map.bytes.len()], used: 0 }
    }

    pub fn cells(&self) -> &[u32] {
        &self.entries[..self.used.min(self.entries.len())]
    }
}

/// Distances in cells, by cell number; without a mark `u32::MAX` and infinite.
#[derive(Clone, Debug, PartialEq)]
pub struct Distances {
    pub squares: Vec<u32>,
    pub distances: Vec<f64>,
}

/// Points of a tool's rim that are over stock, of those sampled.
#[derive(Clone, Copy, Debug, PartialEq, Eq)]
pub struct Contact {
    hits: usize,
    samples: usize,
}

impl Contact {
    /// The contact of so many samples that an angle stands for; none where no contact has that angle.
    pub fn of_angle(angle: f64, samples: usize) -> Option<Contact> {
        linked::contact_angle(0, samples).ok()?;
        let hits = (0..=samples).find(|hits| linked::contact_angle(*hits, samples) == Ok(angle))?;
        Some(Contact { hits, samples })
    }

    pub fn hits(&self) -> usize {
        self.hits
    }

    pub fn samples(&self) -> usize {
        self.samples
    }

    /// The angle that they stand for, in radians.
    pub fn angle(&self) -> f64 {
        linked::contact_angle(self.hits, self.samples).expect("a contact that was counted has its angle")
    }
}

impl Map {
    /// A map without stock.
    pub fn new(grid: Grid) -> Result<Map, Refusal> {
        // Asked for a cell of it, the library judges the grid before anything is owned.
        linked::cell_of(grid, Point::default())?;
        Ok(Map { grid, bytes: vec![0; grid.cells()] })
    }

    fn sides(&self) -> [usize; 2] {
        [self.grid.nx, self.grid.ny]
    }

    /// Clears the disk; how many cells were stock.
    pub fn clear_disk(&mut self, center: Point, radius: f64) -> Result<usize, Refusal> {
        linked::clear_disk(self.grid, &mut self.bytes, center, radius)
    }

    /// Clears the stock of the disk at `center` that is not in that at `before`, and logs it; how many cells it was.
    pub fn clear_crescent(
        &mut self,
        before: Point,
        center: Point,
        radius: f64,
        log: &mut Log,
    ) -> Result<usize, Refusal> {
        let ends = [before, center];
        let used =
            linked::clear_crescent(self.grid, &mut self.bytes, ends, radius, &mut log.entries, log.used)?;
        let removed = used - log.used;
        log.used = used;
        Ok(removed)
    }

    /// Sets the logged cells back to stock.
    pub fn undo(&mut self, log: &Log) -> Result<(), Refusal> {
        linked::undo(self.sides(), &mut self.bytes, &log.entries, log.used)
    }

    /// Clears the logged cells again.
    pub fn clear_again(&mut self, log: &Log) -> Result<(), Refusal> {
        linked::clear_again(self.sides(), &mut self.bytes, &log.entries, log.used)
    }

    /// How many stock cells are in the disk.
    pub fn count_disk(&self, center: Point, radius: f64) -> Result<usize, Refusal> {
        linked::count_disk(self.grid, &self.bytes, center, radius)
    }

    /// How many stock cells are in the map.
    pub fn standing(&self) -> Result<usize, Refusal> {
        linked::standing(self.sides(), &self.bytes)
    }

    /// How many points of a tool's rim are over stock, by samples of the rim, at least 8.
    pub fn contact(&self, center: Point, radius: f64, samples: usize) -> Result<Contact, Refusal> {
        linked::contact(self.grid, &self.bytes, center, radius, samples)
            .map(|(hits, samples)| Contact { hits, samples })
    }

    /// Column and row of the cell that holds a point; none off the grid.
    pub fn cell_of(&self, point: Point) -> Result<Option<(usize, usize)>, Refusal> {
        linked::cell_of(self.grid, point)
    }

    /// Sets the cells whose centre is in a region: in its outer loop, and in none of its islands.
    pub fn fill_region(&mut self, shape: &Shape) -> Result<(), Refusal> {
        let vertices: Vec<f64> = shape.loops().flatten().flat_map(|p| [p.x, p.y]).collect();
        let lengths: Vec<u32> = shape.loops().map(|l| u32::try_from(l.len()).unwrap_or(u32::MAX)).collect();
        linked::fill_region(self.grid, &mut self.bytes, &vertices, &lengths)
    }

    /// The distance of each cell to the nearest whose byte is `mark`.
    pub fn distance_map(&self, mark: u8) -> Result<Distances, Refusal> {
        // Sides that are too large are refused before anything is owned.
        self.standing()?;
        let n = self.grid.cells();
        let mut squares = vec![0; n + 3 * self.grid.nx];
        let mut distances = vec![0.0; n];
        linked::distance_map(self.sides(), &self.bytes, mark, &mut squares, &mut distances)?;
        squares.truncate(n);
        Ok(Distances { squares, distances })
    }
}
