//! Lines with fewer points, and outlines of cells.
use std::f64::consts::{PI, TAU};

/// A point of the paper.
pub type Spot = [f64; 2];

/// The directions from a point in which a line passes each point since within the slack.
struct Cone {
    from: Spot,
    middle: f64,
    /// To either side of the middle.
    right: f64,
    left: f64,
    /// The farthest point so far.
    reach: f64,
}

impl Cone {
    fn new(from: Spot) -> Cone {
        Cone { from, middle: f64::NAN, right: 0.0, left: 0.0, reach: 0.0 }
    }

    /// Narrows the cone to a point; false where it is out of it, or nearer than one before.
    fn narrow(&mut self, to: Spot, slack: f64) -> bool {
        let (dx, dy) = (to[0] - self.from[0], to[1] - self.from[1]);
        let far = dx.hypot(dy);
        if far <= slack {
            return self.reach <= slack;
        }
        let (angle, half) = (dy.atan2(dx), (slack / far).asin());
        if self.middle.is_nan() {
            (self.middle, self.right, self.left) = (angle, -half, half);
        }
        let side = (angle - self.middle + PI).rem_euclid(TAU) - PI;
        let within = self.right <= side && side <= self.left && far >= self.reach;
        self.right = self.right.max(side - half);
        self.left = self.left.min(side + half);
        self.reach = self.reach.max(far);
        within
    }
}

/// The line by some of its points, so that none of the others is farther from it than the slack.
pub fn thin(points: &[Spot], slack: f64) -> Vec<Spot> {
    let [first, .., last] = points else {
        return points.to_vec();
    };
    let mut kept = vec![*first];
    let mut cone = Cone::new(*first);
    for pair in points.windows(2) {
        let [before, to] = [pair[0], pair[1]];
        if !cone.narrow(to, slack) {
            kept.push(before);
            cone = Cone::new(before);
            cone.narrow(to, slack);
        }
    }
    kept.push(*last);
    kept
}

/// The ways along the edges of cells: east, north, west, south.
const WAYS: [(isize, isize); 4] = [(1, 0), (0, 1), (-1, 0), (0, -1)];

/// The outlines of the cells of stock, each a closed line over corners of cells, stock to its left.
pub fn outlines(map: &[u8], nx: usize, ny: usize) -> Vec<Vec<(usize, usize)>> {
    let mut open = edges(map, nx, ny);
    let mut lines = Vec::new();
    for start in 0..open.len() {
        while open[start] != 0 {
            lines.push(follow(&mut open, nx + 1, start));
        }
    }
    lines
}

/// For each corner the ways that lead on from it, a bit each.
fn edges(map: &[u8], nx: usize, ny: usize) -> Vec<u8> {
    let stock = |i: Option<usize>, j: Option<usize>| match (i, j) {
        (Some(i), Some(j)) => i < nx && j < ny && map[j * nx + i] == 1,
        _ => false,
    };
    let mut open = vec![0; (nx + 1) * (ny + 1)];
    let at = |i: usize, j: usize| j * (nx + 1) + i;
    for j in 0..ny {
        for i in (0..nx).filter(|i| map[j * nx + i] == 1) {
            let sides = [
                (stock(Some(i), j.checked_sub(1)), at(i, j)),
                (stock(Some(i + 1), Some(j)), at(i + 1, j)),
                (stock(Some(i), Some(j + 1)), at(i + 1, j + 1)),
                (stock(i.checked_sub(1), Some(j)), at(i, j + 1)),
            ];
            for (way, (inner, corner)) in sides.into_iter().enumerate() {
                open[corner] |= u8::from(!inner) << way;
            }
        }
    }
    open
}

/// Follows the edges from a corner back to it, takes them out, and keeps the corners where the way turns.
fn follow(open: &mut [u8], width: usize, start: usize) -> Vec<(usize, usize)> {
    let mut line = Vec::new();
    let (mut at, mut last) = (start, 4);
    loop {
        // As many edges lead away from a corner as to it, so only the first corner is left without one.
        let way = open[at].trailing_zeros() as usize;
        if way >= WAYS.len() {
            return line;
        }
        open[at] &= !(1 << way);
        if way != last {
            line.push((at % width, at / width));
        }
        let (dx, dy) = WAYS[way];
        at = at.wrapping_add_signed(dx + dy * width as isize);
        last = way;
    }
}

#[cfg(test)]
mod tests {
    use super::*;

    /// How far a point is from a segment.
    fn from_segment(p: Spot, a: Spot, b: Spot) -> f64 {
        let (dx, dy) = (b[0] - a[0], b[1] - a[1]);
        let t = ((p[0] - a[0]) * dx + (p[1] - a[1]) * dy) / (dx * dx + dy * dy).max(1e-300);
        let t = t.clamp(0.0, 1.0);
        (p[0] - a[0] - t * dx).hypot(p[1] - a[1] - t * dy)
    }

    fn within(points: &[Spot], thinned: &[Spot], slack: f64) -> bool {
        let near = |p: &Spot| thinned.windows(2).any(|w| from_segment(*p, w[0], w[1]) <= slack * 1.000001);
        points.iter().all(near)
    }

    /// Numbers from 0 to below 1 that look random.
    fn noise(seed: u64) -> impl Iterator<Item = f64> {
        let mut state = seed;
        std::iter::repeat_with(move || {
            state = state.wrapping_mul(6364136223846793005).wrapping_add(1442695040888963407);
            (state >> 11) as f64 / (1u64 << 53) as f64
        })
    }

    #[test]
    fn a_thinned_line_stays_near_its_points() {
        let circle: Vec<Spot> =
            (0..1000).map(|k| f64::from(k) / 100.0).map(|a| [50.0 * a.cos(), 50.0 * a.sin()]).collect();
        let thinned = thin(&circle, 0.15);
        assert!(thinned.len() < 120 && within(&circle, &thinned, 0.15), "{}", thinned.len());
        let there_and_back: Vec<Spot> = [0.0, 3.0, 9.0, 4.0, 5.0].map(|x| [x, 0.0]).to_vec();
        assert_eq!(thin(&there_and_back, 0.1), [[0.0, 0.0], [9.0, 0.0], [4.0, 0.0], [5.0, 0.0]]);
        for seed in 0..200 {
            let mut noise = noise(seed);
            let (mut x, mut y) = (0.0, 0.0);
            let mut next = || noise.next().unwrap_or(0.0) - 0.5;
            let walk: Vec<Spot> = (0..100)
                .map(|_| {
                    (x, y) = (x + next(), y + next());
                    [x, y]
                })
                .collect();
            let thinned = thin(&walk, 0.3);
            assert!(within(&walk, &thinned, 0.3));
            assert_eq!((thinned.first(), thinned.last()), (walk.first(), walk.last()));
        }
    }

    /// Twice the area to the left of a closed line.
    fn area(line: &[(usize, usize)]) -> i64 {
        let ends = line.iter().zip(line.iter().cycle().skip(1));
        ends.map(|(a, b)| a.0 as i64 * b.1 as i64 - b.0 as i64 * a.1 as i64).sum()
    }

    #[test]
    fn outlines_hold_the_cells() {
        assert_eq!(outlines(&[1], 1, 1), [[(0, 0), (1, 0), (1, 1), (0, 1)]]);
        let ring = [1, 1, 1, 1, 0, 1, 1, 1, 1];
        assert_eq!(outlines(&ring, 3, 3).iter().map(|line| area(line)).collect::<Vec<_>>(), [18, -2]);
        for seed in 0..200 {
            let (nx, ny) = (seed as usize % 9 + 1, seed as usize % 7 + 1);
            let map: Vec<u8> = noise(seed).map(|v| u8::from(v < 0.5)).take(nx * ny).collect();
            let cells = map.iter().filter(|b| **b == 1).count() as i64;
            assert_eq!(outlines(&map, nx, ny).iter().map(|line| area(line)).sum::<i64>(), 2 * cells);
        }
    }
}
