//! The two fills of a region: the print's, even-odd over all its loops, and the changed one, which sets a cell exactly when
//! its centre is in the region by `contains`. They differ where loops overlap, and on centres that lie on an edge.
use crate::entry;
use crate::geom::Region;
use crate::job::Job;
use crate::raster::Grid;
use crate::switches;
use crate::vec2::Vec2;

impl Grid {
    /// Sets the cells of `region` to `value`, by the fill that the switch says.
    pub fn fill_region(&mut self, region: &Region, value: bool) {
        if switches::get().fill_contains {
            self.fill_region_contained(region, value)
        } else {
            self.fill_region_printed(region, value)
        }
    }

    /// The changed fill, the rule itself.
    pub fn fill_region_each(&mut self, region: &Region, value: bool) {
        for j in 0..self.ny {
            for i in 0..self.nx {
                if region.contains(self.center(i, j)) {
                    self.set(i, j, value);
                }
            }
        }
    }

    /// The same cells. A row's centres have one y: an edge's crossing with it is worked out once, and edges that do not
    /// cross it count for none of them.
    pub fn fill_region_contained(&mut self, region: &Region, value: bool) {
        for j in 0..self.ny {
            let y = self.center(0, j).y;
            let outer = crossings(&region.outer, y);
            if outer.is_empty() {
                continue;
            }
            let islands = region.islands.iter().map(|island| crossings(island, y));
            let islands: Vec<Vec<f64>> = islands.filter(|xs| !xs.is_empty()).collect();
            for i in 0..self.nx {
                let x = self.center(i, j).x;
                if odd(&outer, x) && !islands.iter().any(|xs| odd(xs, x)) {
                    self.set(i, j, value);
                }
            }
        }
    }
}

/// Where the edges of a loop cross a row, each worked out as `point_in_loop` does.
fn crossings(pts: &[Vec2], y: f64) -> Vec<f64> {
    let before = pts.iter().cycle().skip(pts.len().saturating_sub(1));
    let edges = pts.iter().zip(before).filter(|(a, b)| (a.y > y) != (b.y > y));
    edges.map(|(a, b)| a.x + (y - a.y) / (b.y - a.y) * (b.x - a.x)).collect()
}

/// `point_in_loop` of a point on a row, from the row's crossings.
fn odd(xs: &[f64], x: f64) -> bool {
    xs.iter().filter(|&&at| x < at).count() % 2 == 1
}

/// Whether the two fills set the same cells of the job's raster for the pocket and for each stock region. A job that
/// questions 1 to 15 refuse has no raster.
pub fn agree(job: &Job) -> bool {
    if entry::refused(job).is_some() {
        return true;
    }
    let (pocket, stock) = job.regions();
    let ((lo, hi), cell) = (pocket.bounds(), job.cell());
    let empty = Grid::new(lo, hi, cell, 2.0 * cell).expect("questions 1 to 15 leave no other raster");
    std::iter::once(&pocket).chain(stock.iter().flatten()).all(|region| {
        let (mut printed, mut changed) = (empty.clone(), empty.clone());
        printed.fill_region_printed(region, true);
        changed.fill_region_contained(region, true);
        printed.data == changed.data
    })
}
