//! The proved distance map against the published one: bits of every distance, and every lent slice.
use compare::distance;
use oracle::generate::Rng;
use oracle::raster::distance_transform;

const BEYOND: usize = 3;

/// Squares and distances of the cells whose byte is `mark`; what is lent beyond them is kept, the
/// scratch is zero.
fn proved(marks: &[u8], mark: u8, nx: usize, ny: usize) -> Vec<f64> {
    let n = nx * ny;
    let mut work = vec![7u32; n + 3 * nx + BEYOND];
    let mut out = vec![9.0f64; n + BEYOND];
    distance::transform(marks, mark, nx, ny, &mut work);
    distance::distances(&work, n, &mut out);
    assert!(work[n..n + 3 * nx].iter().all(|&x| x == 0));
    assert!(work[n + 3 * nx..].iter().all(|&x| x == 7));
    assert!(out[n..].iter().all(|&x| x == 9.0));
    out.truncate(n);
    out
}

fn check(marks: &[bool], nx: usize, ny: usize) {
    let want = distance_transform(marks, nx, ny);
    for mark in [1u8, 0] {
        let mut bytes: Vec<u8> = marks.iter().map(|&m| if m { mark } else { 1 - mark }).collect();
        bytes.push(mark);
        let got = proved(&bytes, mark, nx, ny);
        for (k, (got, want)) in got.iter().zip(&want).enumerate() {
            assert_eq!(got.to_bits(), want.to_bits(), "{nx} by {ny}, cell {k}: {got}, not {want}");
        }
    }
}

#[test]
fn random_maps_of_all_shapes() {
    let mut r = Rng(11);
    for map in 0..1200 {
        let (nx, ny) = match map % 6 {
            0 => (1, r.below(80) as usize + 1),
            1 => (r.below(80) as usize + 1, 1),
            2 => (2, r.below(40) as usize + 1),
            3 => (r.below(200) as usize + 1, r.below(6) as usize + 1),
            _ => (r.below(48) as usize + 1, r.below(48) as usize + 1),
        };
        let n = nx * ny;
        let p = match r.below(5) {
            0 => 1.5 / n as f64,
            1 => 0.5,
            2 => 0.999,
            3 => 20.0 / n as f64,
            _ => r.unit() * r.unit(),
        };
        let marks: Vec<bool> = (0..n).map(|_| r.chance(p)).collect();
        check(&marks, nx, ny);
    }
}

#[test]
fn no_mark_all_marks_a_mark_in_each_corner() {
    for (nx, ny) in [(1, 1), (1, 2), (2, 1), (1, 9), (9, 1), (5, 7), (13, 13), (3, 40), (40, 3), (256, 31)] {
        let n = nx * ny;
        check(&vec![false; n], nx, ny);
        check(&vec![true; n], nx, ny);
        for corner in [0, nx - 1, n - nx, n - 1] {
            let marks: Vec<bool> = (0..n).map(|k| k == corner).collect();
            check(&marks, nx, ny);
            let holes: Vec<bool> = marks.iter().map(|m| !m).collect();
            check(&holes, nx, ny);
        }
    }
}

#[test]
fn the_longest_sides() {
    let mut r = Rng(12);
    for (nx, ny) in [(4096, 1), (1, 4096), (4096, 8), (8, 4096)] {
        let n = nx * ny;
        for marks in [1, n / 3, n] {
            let marks: Vec<bool> = (0..n).map(|_| r.below(n as u64) < marks as u64).collect();
            check(&marks, nx, ny);
        }
        for corner in [0, nx - 1, n - nx, n - 1] {
            let marks: Vec<bool> = (0..n).map(|k| k == corner).collect();
            check(&marks, nx, ny);
        }
    }
}
