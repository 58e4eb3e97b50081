//! What the derived planner gains: the lent triples and rows (questions 16 and 17), the events of
//! term 3, and times. A refusal ends planning; nothing else here changes what is computed, unless a
//! switch asks for a known mistake.
use crate::planner::{Chunk, Planner};
use crate::run::fingerprint;
use crate::switches;
use crate::vec2::Vec2;
use std::cmp::Ordering;
use std::collections::HashMap;
use std::time::Duration;

/// What happens while planning, in order.
#[derive(Clone, Debug, PartialEq)]
pub enum Event {
    Tried { points: Vec<(Vec2, f64)>, removed: usize },
    Withdrawn,
    Kept,
    Link { to: Vec2 },
    Plunge { at: Vec2 },
    Helix { center: Vec2, radius: f64 },
    RefusedLink { to: Vec2 },
    HelixGivenUp { center: Vec2, cells: usize },
}

/// An event, and the fingerprint of the planner's own map as the event left it.
#[derive(Clone, Debug)]
pub struct Happened {
    pub event: Event,
    pub map: u64,
}

#[derive(Clone, Debug, Default)]
pub struct Times {
    pub plan: Duration,
    pub distance: Duration,
    pub field: Duration,
    pub contours: Duration,
    pub blend: Duration,
    pub simulate: Duration,
    pub link: Duration,
    pub helix: Duration,
}

#[derive(Clone, Debug)]
pub struct Hooks {
    pub lent_triples: usize,
    pub lent_rows: usize,
    pub kept_triples: usize,
    /// 16 or 17, once planning has met it.
    pub refused: Option<u32>,
    pub given_up: usize,
    pub spent: bool,
    /// Choices of a piece at which the two orders part.
    pub parted: usize,
    /// Whether events are recorded.
    pub record: bool,
    pub events: Vec<Happened>,
    pub times: Times,
}

impl Hooks {
    pub fn new(lent_triples: usize, lent_rows: usize, record: bool) -> Hooks {
        Hooks {
            lent_triples,
            lent_rows,
            kept_triples: 0,
            refused: None,
            given_up: 0,
            spent: false,
            parted: 0,
            record,
            events: Vec::new(),
            times: Times::default(),
        }
    }
}

/// `timed!(planner, phase, work)`: the work, its time added to the phase.
macro_rules! timed {
    ($planner:ident, $phase:ident, $work:expr) => {{
        let start = std::time::Instant::now();
        let result = $work;
        $planner.hooks.times.$phase += start.elapsed();
        result
    }};
}
pub(crate) use timed;

/// The order of two nodes with equal estimates in the heap, whose greatest comes first.
pub fn lower_first(a: usize, b: usize) -> Ordering {
    if switches::get().higher_first { a.cmp(&b) } else { b.cmp(&a) }
}

/// The contour's edge map: of two edges from one start the last wins.
pub fn join(next: &mut HashMap<usize, usize>, a: usize, b: usize) {
    if switches::get().first_wins {
        next.entry(a).or_insert(b);
    } else {
        next.insert(a, b);
    }
}

impl Planner<'_> {
    pub fn event(&mut self, event: Event) {
        if self.hooks.record {
            let map = fingerprint(&self.m.data);
            self.hooks.events.push(Happened { event, map });
        }
    }

    /// A pass has been tried; question 16 for it.
    pub fn tried(&mut self, points: &[(Vec2, f64)], removed: usize) {
        self.event(Event::Tried { points: points.to_vec(), removed });
        if self.hooks.kept_triples + points.len() > self.hooks.lent_triples {
            self.hooks.refused.get_or_insert(16);
        }
    }

    /// Keeps a chunk: question 16, then 17, for it.
    pub fn put(&mut self, chunk: Chunk) {
        if self.hooks.refused.is_some() {
            return;
        }
        let triples = if let Chunk::Cut { pts } = &chunk { pts.len() } else { 1 };
        if self.hooks.kept_triples + triples > self.hooks.lent_triples {
            self.hooks.refused = Some(16);
            return;
        }
        if self.chunks.len() + 1 > self.hooks.lent_rows {
            self.hooks.refused = Some(17);
            return;
        }
        self.event(match &chunk {
            Chunk::Helix { center, radius } => Event::Helix { center: *center, radius: *radius },
            Chunk::Plunge { at } => Event::Plunge { at: *at },
            Chunk::Link { to } => Event::Link { to: *to },
            Chunk::Cut { .. } => Event::Kept,
        });
        self.hooks.kept_triples += triples;
        self.chunks.push(chunk);
    }
}
