//! Contact, faster than printed by a table of rim directions, computed once for a sample count.
use crate::circle::{cos, sin};
use crate::raster::Grid;
use crate::switches;
use crate::vec2::{Vec2, v2};
use std::cell::RefCell;
use std::f64::consts::TAU;
use std::rc::Rc;

thread_local! {
    static RIM: RefCell<Rc<Vec<Vec2>>> = RefCell::new(Rc::new(Vec::new()));
}

/// The directions at TAU (k + 0.5) / n for k below n.
pub fn rim(n: usize) -> Rc<Vec<Vec2>> {
    RIM.with_borrow_mut(|table| {
        if table.len() != n {
            let direction = |k: usize| {
                let a = TAU * (k as f64 + 0.5) / n as f64;
                v2(cos(a), sin(a))
            };
            *table = Rc::new((0..n).map(direction).collect());
        }
        table.clone()
    })
}

impl Grid {
    /// The bits of `engagement_printed`.
    pub fn engagement(&self, c: Vec2, r: f64, samples: usize) -> f64 {
        if switches::get().plain_rim {
            return self.engagement_printed(c, r, samples);
        }
        let n = samples.max(8);
        let hits = rim(n).iter().filter(|u| self.at(c + **u * r)).count();
        TAU * hits as f64 / n as f64
    }
}
