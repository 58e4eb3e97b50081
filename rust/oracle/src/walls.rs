//! Walls within a distance, by document 01: every segment looked at.
use crate::geom::{SegIndex, seg_distance};
use crate::switches;
use crate::vec2::Vec2;

impl SegIndex {
    /// True when some segment passes within `r` of `p`.
    pub fn any_within(&self, p: Vec2, r: f64) -> bool {
        if switches::get().buckets { self.any_within_printed(p, r) } else { self.any_within_boxed(p, r) }
    }

    /// The rule itself.
    pub fn any_within_each(&self, p: Vec2, r: f64) -> bool {
        self.segs.iter().any(|&(a, b)| seg_distance(p, a, b) < r)
    }

    /// The same answer; a segment whose box is farther by 1e-6, well above any rounding of a distance
    /// between coordinates within ±20,000, is skipped.
    pub fn any_within_boxed(&self, p: Vec2, r: f64) -> bool {
        let far = r + 1e-6;
        self.segs.iter().any(|&(a, b)| {
            let beyond = a.x.min(b.x) - p.x > far
                || p.x - a.x.max(b.x) > far
                || a.y.min(b.y) - p.y > far
                || p.y - a.y.max(b.y) > far;
            !beyond && seg_distance(p, a, b) < r
        })
    }
}
