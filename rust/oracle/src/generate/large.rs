//! The twelve larger jobs, for timing.
use super::shapes::{Loop, add, rect, ring};
use crate::job::Job;
use crate::planner::AdaptiveParams;
use crate::vec2::{Vec2, v2};
use std::f64::consts::TAU;

pub fn large() -> Vec<(&'static str, Job)> {
    let base = |d: f64, e: f64| {
        let mut p = AdaptiveParams::new(d, 0.0, -d, 1000.0);
        p.max_engagement_deg = e;
        p
    };
    let mut out = Vec::new();
    let mut put = |name, p: AdaptiveParams, loops: Vec<Loop>, stock: Option<Vec<Vec<Loop>>>| {
        let mut j = Job::new(p);
        add(&mut j, loops, stock);
        out.push((name, j));
    };
    put("b01-rect-e60", base(6.0, 60.0), vec![rect(0.0, 0.0, 36.0, 36.0)], None);
    put("b02-rect-e30", base(6.0, 30.0), vec![rect(0.0, 0.0, 36.0, 33.0)], None);
    put("b03-circle-e90", base(6.0, 90.0), vec![ring(v2(3.0, -7.0), 24.0, 64, 0.0)], None);
    put(
        "b04-ell-e60",
        base(10.0, 60.0),
        vec![vec![
            v2(0.0, 0.0),
            v2(80.0, 0.0),
            v2(80.0, 30.0),
            v2(30.0, 30.0),
            v2(30.0, 80.0),
            v2(0.0, 80.0),
        ]],
        None,
    );
    put(
        "b05-islands-e60",
        base(6.0, 60.0),
        vec![
            rect(0.0, 0.0, 50.0, 40.0),
            ring(v2(13.0, 12.0), 3.0, 16, 0.1),
            ring(v2(34.0, 27.0), 4.0, 5, 0.4),
            rect(33.0, 9.0, 36.0, 14.0),
        ],
        None,
    );
    {
        let o = ring(Vec2::ZERO, 30.0, 7, 0.3);
        let i = ring(Vec2::ZERO, 17.0, 7, 0.3 + TAU / 14.0);
        put(
            "b06-star-e75",
            base(6.0, 75.0),
            vec![o.into_iter().zip(i).flat_map(|(x, y)| [x, y]).collect()],
            None,
        );
    }
    put(
        "b07-dumbbell-e60",
        base(6.0, 60.0),
        vec![vec![
            v2(0.0, 0.0),
            v2(20.0, 0.0),
            v2(20.0, 9.0),
            v2(40.0, 9.0),
            v2(40.0, 0.0),
            v2(60.0, 0.0),
            v2(60.0, 24.0),
            v2(40.0, 24.0),
            v2(40.0, 16.0),
            v2(20.0, 16.0),
            v2(20.0, 24.0),
            v2(0.0, 24.0),
        ]],
        None,
    );
    put(
        "b08-open-e50",
        base(8.0, 50.0),
        vec![rect(-10.0, -10.0, 50.0, 50.0)],
        Some(vec![vec![rect(0.0, 0.0, 40.0, 40.0), ring(v2(20.0, 20.0), 6.0, 24, 0.0)]]),
    );
    put("b09-wide-e120", base(6.0, 120.0), vec![rect(0.0, 0.0, 70.0, 72.0)], None);
    put("b10-slot-e70", base(6.0, 70.0), vec![rect(0.0, 0.0, 280.0, 18.0)], None);
    {
        let mut p = base(6.0, 60.0);
        p.resolution = Some(0.02);
        put("b11-fine-e60", p, vec![rect(0.0, 0.0, 15.0, 14.0)], None);
    }
    {
        // Spends the budget.
        let mut p = base(6.0, 60.0);
        p.resolution = Some(0.012);
        put("b12-finest-e60", p, vec![rect(0.0, 0.0, 12.1, 12.1)], None);
    }
    out
}
