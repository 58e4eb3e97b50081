//! The published distance transform against brute force in whole numbers.
use oracle::generate::Rng;
use oracle::raster::distance_transform;
use oracle::replay::squared_distances;

/// The definition: the least squared distance over all marks.
fn brute(marks: &[bool], nx: usize) -> Vec<Option<u64>> {
    let marked: Vec<(i64, i64)> =
        (0..marks.len()).filter(|&k| marks[k]).map(|k| ((k % nx) as i64, (k / nx) as i64)).collect();
    (0..marks.len())
        .map(|k| {
            let (i, j) = ((k % nx) as i64, (k / nx) as i64);
            marked.iter().map(|(a, b)| ((i - a).pow(2) + (j - b).pow(2)) as u64).min()
        })
        .collect()
}

/// Bits of the published distances are those of the rounded roots.
fn check(marks: &[bool], nx: usize, want: &[Option<u64>]) {
    let ny = marks.len() / nx;
    let got = distance_transform(marks, nx, ny);
    for (k, (got, want)) in got.iter().zip(want).enumerate() {
        let want = want.map_or(f64::INFINITY, |d| (d as f64).sqrt());
        assert_eq!(got.to_bits(), want.to_bits(), "{nx} by {ny}, cell {k}: {got}, not {want}");
    }
}

fn random_marks(r: &mut Rng, n: usize) -> Vec<bool> {
    let p = match r.below(5) {
        0 => 1.5 / n as f64,
        1 => 0.5,
        2 => 0.999,
        3 => 20.0 / n as f64,
        _ => r.unit() * r.unit(),
    };
    (0..n).map(|_| r.chance(p)).collect()
}

#[test]
fn random_maps_of_all_shapes() {
    let mut r = Rng(7);
    for map in 0..3000 {
        let (nx, ny) = match map % 6 {
            0 => (1, r.below(60) as usize + 1),
            1 => (r.below(60) as usize + 1, 1),
            2 => (2, r.below(30) as usize + 1),
            _ => (r.below(24) as usize + 1, r.below(24) as usize + 1),
        };
        let marks = random_marks(&mut r, nx * ny);
        let want = brute(&marks, nx);
        check(&marks, nx, &want);
        assert_eq!(squared_distances(&marks, nx, ny), want);
    }
}

#[test]
fn no_marks_all_marks_one_mark() {
    for (nx, ny) in [(1, 1), (1, 9), (9, 1), (5, 7), (13, 13), (3, 40)] {
        let n = nx * ny;
        for marks in [vec![false; n], vec![true; n]] {
            check(&marks, nx, &brute(&marks, nx));
        }
        for k in 0..n {
            let mut marks = vec![false; n];
            marks[k] = true;
            check(&marks, nx, &brute(&marks, nx));
        }
    }
}

/// One mark mid 3 by 3: squares 2 1 2 / 1 0 1 / 2 1 2; none: all infinite.
#[test]
fn the_marked_examples() {
    let mut marks = vec![false; 9];
    check(&marks, 3, &[None; 9]);
    marks[4] = true;
    check(&marks, 3, &[2, 1, 2, 1, 0, 1, 2, 1, 2].map(Some));
}

/// The longest sides, against the whole-number transform that the maps above hold to brute force.
#[test]
fn the_longest_sides() {
    let mut r = Rng(11);
    for (nx, ny) in [(4096, 1), (1, 4096), (4096, 256), (256, 4096), (1024, 1024)] {
        let sparse: Vec<bool> = (0..nx * ny).map(|_| r.chance(0.002)).collect();
        check(&sparse, nx, &squared_distances(&sparse, nx, ny));
    }
    for (nx, ny) in [(4096, 1), (1, 4096), (4096, 3), (3, 4096)] {
        for k in [0, nx - 1, nx * (ny - 1), nx * ny - 1] {
            let mut corner = vec![false; nx * ny];
            corner[k] = true;
            check(&corner, nx, &brute(&corner, nx));
        }
    }
}
