//! Questions 14 to 17.
use super::{Case, down, pocket, point, square, up};
use crate::raw::Raw;
use oracle::job::Job;
use oracle::vec2::v2;

/// A line from (0, 0) to (x, y), cell 1/8: 8 x + 5 columns, 8 y + 5 rows, no stock.
fn line(x: f64, y: f64) -> Job {
    let mut job = pocket(vec![v2(0.0, 0.0), v2(x, y), v2(0.0, 0.0)]);
    job.params.tool_diameter = 7.5;
    job.params.resolution = Some(0.125);
    job
}

/// Nothing is lent, so that what passes 14 is turned back by 15.
fn rasters() -> Vec<Case> {
    let side = |n: f64| (n - 5.0) / 8.0;
    let (most, middle) = (side(4096.0), side(1024.0));
    let mut out = Vec::new();
    for (x, y, want) in [
        (most, 0.0, 15),
        (down(most), 0.0, 15),
        (up(most), 0.0, 14),
        (0.0, most, 15),
        (0.0, up(most), 14),
        // 4,096 by 256, and 1,024 by 1,024, are 1,048,576.
        (most, side(256.0), 15),
        (most, up(side(256.0)), 14),
        (middle, middle, 15),
        (up(middle), middle, 14),
        (middle, up(middle), 14),
        (most, most, 14),
        (10_000.0, 0.0, 14),
        (10_000.0, 10_000.0, 14),
    ] {
        let job = Job { lent: [Some(0); 4], ..line(x, y) };
        out.push(Case::job(format!("a line to {x:e} {y:e}"), job, want));
    }
    out.push(Case::job("4,096 columns".into(), line(most, 0.0), 0));
    out.push(Case::job("4,096 rows".into(), line(0.0, most), 0));
    out
}

const NAMES: [&str; 6] = ["bytes", "words", "singles", "doubles", "rows", "triples"];

/// The job with another length of the slice of this number.
fn lending(of: &Job, slice: usize, length: usize, want: u32) -> Case {
    let mut raw = Raw::new(of);
    raw.lent[slice] = length;
    Case { name: format!("{length} {}", NAMES[slice]), raw, want, of: of.clone() }
}

/// Workspace by the closing list of document 01: N is 25 and 9,025.
fn workspace() -> Vec<Case> {
    let mut out = Vec::new();
    for (job, needed) in [(point(), [200, 8_992, 50, 8_992]), (square(), [72_200, 296_992, 18_050, 296_992])]
    {
        for (slice, n) in needed.into_iter().enumerate() {
            for (length, want) in [(0, 15), (1, 15), (n - 1, 15), (n, 0), (n + 1, 0)] {
                out.push(lending(&job, slice, length, want));
            }
        }
    }
    out
}

/// The square's list has 51 rows and 1,001 triples, three numbers each; a rest counts for none.
fn outputs() -> Vec<Case> {
    let mut out = Vec::new();
    for (slice, n, number) in [(4, 153, 17), (5, 3_003, 16)] {
        for (length, want) in [
            (0, number),
            (1, number),
            (2, number),
            (3, number),
            (n - 3, number),
            (n - 2, number),
            (n - 1, number),
            (n, 0),
            (n + 1, 0),
            (n + 2, 0),
            (n + 3, 0),
        ] {
            out.push(lending(&square(), slice, length, want));
        }
        // There is nothing to list.
        out.push(lending(&point(), slice, 0, 0));
    }
    let neither = Job { lent_rows: 0, lent_triples: 0, ..square() };
    out.push(Case::job("neither rows nor triples".into(), neither, 16));
    out
}

/// Nothing is lent at all.
fn nothing() -> Case {
    let job = point();
    let raw = Raw {
        vertices: Vec::new(),
        lengths: Vec::new(),
        regions: Vec::new(),
        lent: [0; 6],
        ..Raw::new(&job)
    };
    Case { name: "nothing lent".into(), raw, want: 13, of: job }
}

pub fn cases() -> Vec<Case> {
    let mut out: Vec<Case> = [rasters(), workspace(), outputs()].into_iter().flatten().collect();
    out.push(nothing());
    out
}
