//! The replay's map, and the rules of allowed, free, contact and link worked out from the job.
use super::distance::squared_distances;
use crate::circle::cos_sin;
use crate::job::Job;
use crate::rim::rim;
use crate::switches;
use crate::vec2::{Vec2, v2};
use std::f64::consts::{PI, TAU};

pub struct World {
    origin: Vec2,
    cell: f64,
    pub nx: usize,
    pub ny: usize,
    pub map: Vec<bool>,
    /// The pocket's loops.
    loops: Vec<Vec<Vec2>>,
    /// Distance of each cell to the nearest cell outside the pocket.
    wall: Vec<f64>,
    keep: f64,
    pub r: f64,
    samples: usize,
    guard: f64,
    limit: f64,
}

/// Sets the cells of a region by the fill that the switch says.
fn fill(map: &mut [bool], nx: usize, origin: Vec2, cell: f64, loops: &[Vec<Vec2>]) {
    let by = if switches::get().fill_contains { fill_within } else { fill_even_odd };
    by(map, nx, origin, cell, loops)
}

/// The cells whose centre is within the region.
fn fill_within(map: &mut [bool], nx: usize, origin: Vec2, cell: f64, loops: &[Vec<Vec2>]) {
    for (k, v) in map.iter_mut().enumerate() {
        let q = origin + v2((k % nx) as f64 + 0.5, (k / nx) as f64 + 0.5) * cell;
        *v |= within(q, loops);
    }
}

/// The cells in a row of each loop list's even-odd crossings.
fn fill_even_odd(map: &mut [bool], nx: usize, origin: Vec2, cell: f64, loops: &[Vec<Vec2>]) {
    for (j, row) in map.chunks_mut(nx).enumerate() {
        let y = origin.y + (j as f64 + 0.5) * cell;
        let mut crossings = Vec::new();
        for l in loops {
            for (i, a) in l.iter().enumerate() {
                let b = l[(i + 1) % l.len()];
                if (a.y > y) != (b.y > y) {
                    crossings.push(a.x + (y - a.y) / (b.y - a.y) * (b.x - a.x));
                }
            }
        }
        crossings.sort_by(f64::total_cmp);
        for pair in crossings.chunks_exact(2) {
            let first = ((pair[0] - origin.x) / cell - 0.5).ceil();
            let last = ((pair[1] - origin.x) / cell - 0.5).floor();
            for (i, v) in row.iter_mut().enumerate() {
                if i as f64 >= first && i as f64 <= last {
                    *v = true;
                }
            }
        }
    }
}

fn inside(q: Vec2, l: &[Vec2]) -> bool {
    let mut odd = false;
    for (i, a) in l.iter().enumerate() {
        let b = l[(i + l.len() - 1) % l.len()];
        if (a.y > q.y) != (b.y > q.y) && q.x < a.x + (q.y - a.y) / (b.y - a.y) * (b.x - a.x) {
            odd = !odd;
        }
    }
    odd
}

/// Inside the outer loop, and inside no island.
fn within(q: Vec2, loops: &[Vec<Vec2>]) -> bool {
    inside(q, &loops[0]) && !loops[1..].iter().any(|l| inside(q, l))
}

fn segment_distance(q: Vec2, a: Vec2, b: Vec2) -> f64 {
    let ab = b - a;
    let l2 = ab.x * ab.x + ab.y * ab.y;
    let along = (q.x - a.x) * ab.x + (q.y - a.y) * ab.y;
    let t = if l2 < 1e-24 { 0.0 } else { (along / l2).clamp(0.0, 1.0) };
    let (dx, dy) = (a.x + ab.x * t - q.x, a.y + ab.y * t - q.y);
    (dx * dx + dy * dy).sqrt()
}

impl World {
    /// The starting stock of a job that questions 1 to 15 let pass.
    pub fn new(job: &Job) -> World {
        let p = &job.params;
        let cell = job.cell();
        let (pocket, stock) = job.regions();
        let edge =
            |f: fn(f64, f64) -> f64, of: fn(&Vec2) -> f64| pocket.outer.iter().map(of).reduce(f).unwrap();
        let lo = v2(edge(f64::min, |v| v.x), edge(f64::min, |v| v.y));
        let hi = v2(edge(f64::max, |v| v.x), edge(f64::max, |v| v.y));
        let margin = 2.0 * cell;
        let origin = v2(lo.x - margin, lo.y - margin);
        let nx = ((hi.x - lo.x + 2.0 * margin) / cell).ceil() as usize + 1;
        let ny = ((hi.y - lo.y + 2.0 * margin) / cell).ceil() as usize + 1;

        let loops: Vec<Vec<Vec2>> = std::iter::once(pocket.outer).chain(pocket.islands).collect();
        let mut map = vec![false; nx * ny];
        fill(&mut map, nx, origin, cell, &loops);
        let outside: Vec<bool> = map.iter().map(|b| !b).collect();
        let wall = squared_distances(&outside, nx, ny)
            .into_iter()
            .map(|d| d.map_or(f64::INFINITY, |d| (d as f64).sqrt()) * cell)
            .collect();
        if let Some(regions) = stock {
            let mut material = vec![false; nx * ny];
            for region in regions {
                let loops: Vec<Vec<Vec2>> = std::iter::once(region.outer).chain(region.islands).collect();
                fill(&mut material, nx, origin, cell, &loops);
            }
            map.iter_mut().zip(material).for_each(|(a, b)| *a &= b);
        }

        let r = p.tool_diameter * 0.5;
        let limit = p.max_engagement_deg.to_radians();
        let guard = (0.5 * limit).max((limit * (1.0 - 0.05)).min(limit - 2.0 * cell / r));
        let samples = ((4.0 * PI * r / cell).ceil() as usize).clamp(64, 2048);
        let keep = r + p.stock_to_leave;
        World { origin, cell, nx, ny, map, loops, wall, keep, r, samples, guard, limit }
    }

    pub fn stock(&self) -> usize {
        self.map.iter().filter(|b| **b).count()
    }

    pub fn clear(&mut self, cells: &[usize]) {
        cells.iter().for_each(|&k| self.map[k] = false);
    }

    pub fn restore(&mut self, cells: &[usize]) {
        cells.iter().for_each(|&k| self.map[k] = true);
    }

    fn cell_at(&self, q: Vec2) -> Option<usize> {
        let i = ((q.x - self.origin.x) / self.cell).floor();
        let j = ((q.y - self.origin.y) / self.cell).floor();
        let on = i >= 0.0 && j >= 0.0 && i < self.nx as f64 && j < self.ny as f64;
        on.then(|| j as usize * self.nx + i as usize)
    }

    pub fn allowed(&self, q: Vec2) -> bool {
        let Some(k) = self.cell_at(q) else { return false };
        let near = |l: &Vec<Vec2>| {
            l.iter().enumerate().any(|(i, a)| segment_distance(q, *a, l[(i + 1) % l.len()]) < self.keep)
        };
        self.wall[k] + 2.0 * self.cell >= self.keep && !self.loops.iter().any(near) && within(q, &self.loops)
    }

    pub fn free(&self, q: Vec2) -> bool {
        self.disk(q, self.r).is_empty()
    }

    /// Whether the centre of column i in row j is within r of c, by columns.
    fn in_row(&self, c: Vec2, r: f64, i: usize, j: usize) -> bool {
        let dy = self.origin.y + (j as f64 + 0.5) * self.cell - c.y;
        let h2 = r * r - dy * dy;
        if h2 < 0.0 {
            return false;
        }
        let h = h2.sqrt();
        i as f64 >= ((c.x - h - self.origin.x) / self.cell - 0.5).ceil()
            && i as f64 <= ((c.x + h - self.origin.x) / self.cell - 0.5).floor()
    }

    /// The stock cells of the disk, in order of their numbers: by rows, then by columns.
    pub fn disk(&self, c: Vec2, r: f64) -> Vec<usize> {
        let first = ((c.y - r - self.origin.y) / self.cell - 0.5).ceil().max(0.0);
        let last = ((c.y + r - self.origin.y) / self.cell - 0.5).floor().max(0.0);
        // Columns looked at: the disk's box, two cells wider.
        let column = |x: f64| (x - self.origin.x) / self.cell;
        let from = (column(c.x - r) - 2.0).max(0.0) as usize;
        let until = ((column(c.x + r) + 3.0).max(0.0) as usize).min(self.nx);
        let mut cells = Vec::new();
        for j in (0..self.ny).filter(|&j| first <= j as f64 && j as f64 <= last) {
            for i in from..until {
                let k = j * self.nx + i;
                if self.map[k] && self.in_row(c, r, i, j) {
                    cells.push(k);
                }
            }
        }
        cells
    }

    /// The stock cells in the disk at c and not in that at the point before. As printed, the rows of
    /// the crescent are those of the disk at c; in each of them both disks are judged by columns.
    fn crescent(&self, before: Vec2, c: Vec2) -> Vec<usize> {
        let mut cells = self.disk(c, self.r);
        cells.retain(|k| !self.in_row(before, self.r, k % self.nx, k / self.nx));
        cells
    }

    pub fn contact(&self, c: Vec2, r: f64) -> f64 {
        let over = |u: &&Vec2| self.cell_at(v2(c.x + u.x * r, c.y + u.y * r)).is_some_and(|k| self.map[k]);
        TAU * rim(self.samples).iter().filter(over).count() as f64 / self.samples as f64
    }

    pub fn link_clear(&self, a: Vec2, b: Vec2) -> bool {
        let n = (a.distance(b) / self.cell).ceil().max(1.0) as usize;
        let r = self.r - self.cell;
        let sample = |k: usize| {
            let t = k as f64 / n as f64;
            v2(a.x + (b.x - a.x) * t, a.y + (b.y - a.y) * t)
        };
        n <= 200_000
            && (0..=n).map(sample).all(|q| self.allowed(q) && self.contact(q, r) == 0.0)
            && self.disk(b, r).is_empty()
    }

    pub fn check_helix(&self, center: Vec2, radius: f64, name: &str, bad: &mut Vec<String>) {
        for k in 0..36 {
            let (c, s) = cos_sin(TAU * k as f64 / 36.0);
            if !self.allowed(v2(center.x + c * radius, center.y + s * radius)) {
                bad.push(format!("{name}: rim point {k} of the helix is not allowed"));
            }
        }
    }

    pub fn check_plunge(&self, q: Vec2, name: &str, bad: &mut Vec<String>) {
        if !self.allowed(q) || !self.free(q) {
            bad.push(format!("{name}: plunge where it is not allowed or not free"));
        }
    }

    pub fn check_link(&self, from: Option<Vec2>, to: Vec2, name: &str, bad: &mut Vec<String>) {
        match from {
            None => bad.push(format!("{name}: link from nowhere")),
            Some(from) if !self.link_clear(from, to) => bad.push(format!("{name}: link is not clear")),
            Some(_) => {}
        }
    }

    /// Clears a cut, checks it point by point, and tells the cells cleared.
    pub fn cut(&mut self, t: &[[f64; 3]], name: &str, bad: &mut Vec<String>) -> Vec<usize> {
        let mut cleared = Vec::new();
        let Some(first) = t.first() else { return cleared };
        let mut before = v2(first[0], first[1]);
        if first[2].to_bits() != 0 {
            bad.push(format!("{name}: first engagement is not 0"));
        }
        if !self.allowed(before) {
            bad.push(format!("{name}: begins where it is not allowed"));
        }
        if !self.free(before) {
            bad.push(format!("{name}: begins in stock"));
        }
        for (k, t) in t.iter().enumerate().skip(1) {
            let q = v2(t[0], t[1]);
            if !self.allowed(q) {
                bad.push(format!("{name} point {k}: not allowed"));
            }
            let contact = self.contact(q, self.r + 0.25 * self.cell);
            if contact > self.guard {
                bad.push(format!("{name} point {k}: contact {contact} above the guard {}", self.guard));
            }
            if contact >= self.limit {
                bad.push(format!("{name} point {k}: contact {contact} not below the limit {}", self.limit));
            }
            if contact.to_bits() != t[2].to_bits() {
                bad.push(format!("{name} point {k}: contact {contact}, listed {}", t[2]));
            }
            let cells = self.crescent(before, q);
            self.clear(&cells);
            cleared.extend(cells);
            before = q;
        }
        cleared
    }
}
