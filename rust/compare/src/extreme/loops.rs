//! Question 13.
use super::{Case, NOT_FINITE, TINY, down, point, up};
use crate::raw::Raw;
use oracle::vec2::v2;

const TOP: u32 = u32::MAX;

/// Each of the three vertices at (v, v).
fn placed() -> Vec<(f64, u32)> {
    let mut values: Vec<(f64, u32)> = NOT_FINITE.iter().map(|&v| (v, 13)).collect();
    for sign in [1.0, -1.0] {
        for (v, want) in [
            (0.0, 0),
            (TINY, 0),
            (f64::MIN_POSITIVE, 0),
            (down(10_000.0), 0),
            (10_000.0, 0),
            (up(10_000.0), 13),
            (f64::MAX, 13),
        ] {
            values.push((sign * v, want));
        }
    }
    values
}

fn coordinates() -> Vec<Case> {
    let mut out = Vec::new();
    for (v, want) in placed() {
        let mut job = point();
        job.verts = vec![v2(v, v); 3];
        out.push(Case::job(format!("vertices at {v:e}"), job, want));
        if want == 0 {
            continue;
        }
        // Each coordinate by itself.
        for k in 0..6 {
            let job = point();
            let mut raw = Raw::new(&job);
            raw.vertices[k] = v;
            out.push(Case { name: format!("coordinate {k} is {v:e}"), raw, want, of: job });
        }
    }
    out
}

/// Whether there is no stock list, loops of each region, lengths of the loops, and the answer, to which are lent as many
/// vertices as the lengths say.
fn counts() -> Vec<(bool, Vec<u32>, Vec<u32>, u32)> {
    let threes = |n: usize| vec![3; n];
    vec![
        (true, vec![1], vec![3], 0),
        (false, vec![1], vec![3], 0),
        (true, vec![1], vec![2], 13),
        (true, vec![1], vec![0], 13),
        (true, vec![2], vec![3, 2], 13),
        (true, vec![2], vec![3, 0], 13),
        (true, vec![], vec![], 13),
        (false, vec![], vec![], 13),
        (true, vec![1], vec![], 13),
        (true, vec![], vec![3], 13),
        (true, vec![0], vec![], 13),
        (true, vec![0], vec![3], 13),
        (true, vec![2], vec![3], 13),
        (true, vec![1], vec![3, 3], 13),
        (false, vec![1, 0], vec![3], 13),
        (false, vec![0, 1], vec![3], 13),
        (false, vec![1, 1], vec![3, 3], 0),
        // Without a stock list there is no second region.
        (true, vec![1, 1], vec![3, 3], 13),
        // 4,096 vertices in all.
        (true, vec![1], vec![4096], 0),
        (true, vec![1], vec![4097], 13),
        (true, vec![2], vec![3, 4093], 0),
        (true, vec![2], vec![3, 4094], 13),
        (false, vec![1, 1], vec![4093, 3], 0),
        (false, vec![1, 1], vec![4094, 3], 13),
        // 64 islands a region.
        (true, vec![65], threes(65), 0),
        (true, vec![66], threes(66), 13),
        (false, vec![1, 65], threes(66), 0),
        (false, vec![1, 66], threes(67), 13),
        // 16 stock regions.
        (false, vec![1; 17], threes(17), 0),
        (false, vec![1; 18], threes(18), 13),
        (false, vec![65; 17], threes(17 * 65), 0),
    ]
}

/// Lengths and counts that fit only where a sum loses a carry, with the number of coordinates that would fit.
fn carries() -> Vec<(Vec<u32>, Vec<u32>, usize)> {
    vec![
        (vec![2], vec![TOP, 4], 6),
        (vec![3], vec![TOP, TOP, 5], 6),
        (vec![4], vec![TOP, TOP, TOP, 6], 6),
        (vec![2], vec![1 << 31, (1 << 31) + 3], 6),
        // Twice the length.
        (vec![1], vec![(1 << 31) + 3], 6),
        (vec![1], vec![TOP], 0),
        (vec![1], vec![TOP], 2),
        (vec![TOP], vec![3], 6),
        (vec![TOP, 2], vec![3], 6),
        (vec![1, TOP, 1], vec![3], 6),
        (vec![1 << 31, 1 << 31, 1], vec![3], 6),
        (vec![TOP; 17], vec![3; 17], 17 * 6),
        (vec![TOP, TOP, TOP, 4], vec![3], 6),
    ]
}

fn raw(whole: bool, regions: Vec<u32>, lengths: Vec<u32>, coordinates: usize) -> Raw {
    let vertices = vec![1.0; coordinates];
    Raw { whole, vertices, lengths, regions, ..Raw::new(&point()) }
}

pub fn cases() -> Vec<Case> {
    let mut out = coordinates();
    let mut add = |whole, regions: Vec<u32>, lengths: Vec<u32>, coordinates: usize, want| {
        let name = format!("{regions:?} loops of {lengths:?}, {coordinates} coordinates");
        out.push(Case { name, raw: raw(whole, regions, lengths, coordinates), want, of: point() });
    };
    for (whole, regions, lengths, want) in counts() {
        let fitting = 2 * lengths.iter().sum::<u32>() as usize;
        for coordinates in [fitting + 1, fitting + 2, fitting.saturating_sub(1), fitting.saturating_sub(2), 0]
        {
            if coordinates != fitting {
                add(whole, regions.clone(), lengths.clone(), coordinates, 13);
            }
        }
        add(whole, regions, lengths, fitting, want);
    }
    for (regions, lengths, coordinates) in carries() {
        for whole in [false, true] {
            add(whole, regions.clone(), lengths.clone(), coordinates, 13);
        }
    }
    out
}
