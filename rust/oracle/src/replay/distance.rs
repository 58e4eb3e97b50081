//! Distances in whole numbers.

/// The least squared cell distance to a mark, for each cell; none without marks.
pub fn squared_distances(mark: &[bool], nx: usize, ny: usize) -> Vec<Option<u64>> {
    let columns = column_distances(mark, nx, ny);
    let mut out = Vec::with_capacity(nx * ny);
    for row in columns.chunks(nx.max(1)) {
        for i in 0..nx {
            // Outward from column i, until no farther column can be nearer.
            let mut best: Option<u64> = None;
            for dx in 0..nx {
                let dx2 = (dx * dx) as u64;
                if best.is_some_and(|b| dx2 > b) {
                    break;
                }
                for column in [i.checked_sub(dx), Some(i + dx)].into_iter().flatten() {
                    if let Some(dy) = row.get(column).copied().flatten() {
                        let d = dx2 + dy * dy;
                        best = Some(best.map_or(d, |b| b.min(d)));
                    }
                }
            }
            out.push(best);
        }
    }
    out
}

/// The distance to the nearest mark in the same column.
fn column_distances(mark: &[bool], nx: usize, ny: usize) -> Vec<Option<u64>> {
    let mut out: Vec<Option<u64>> = vec![None; nx * ny];
    for i in 0..nx {
        let mut below: Option<usize> = None;
        for j in 0..ny {
            if mark[j * nx + i] {
                below = Some(j);
            }
            out[j * nx + i] = below.map(|b| (j - b) as u64);
        }
        let mut above: Option<usize> = None;
        for j in (0..ny).rev() {
            if mark[j * nx + i] {
                above = Some(j);
            }
            if let Some(a) = above {
                let d = (a - j) as u64;
                let k = j * nx + i;
                out[k] = Some(out[k].map_or(d, |b| b.min(d)));
            }
        }
    }
    out
}
