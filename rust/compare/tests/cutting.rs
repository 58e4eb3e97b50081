//! Pieces cut beside the oracle's, in the order of its own plans: what became of each, map, dirty cells, rows,
//! triples, place, greatest contact and work; the tried passes as triples and log have them. With too few
//! triples or rows, refusals 16 and 17 where document 01 says.
use compare::cutting::{Cut, Cutting, Room, State};
use compare::geom::Lent;
use compare::planners::{Cutter, cut, each_job, plan, with_planner};
use oracle::generate::{Rng, large};
use oracle::hooks::{Event, Happened};
use oracle::job::Job;
use oracle::planner::{Chunk, Piece, Planner};
use oracle::raster::Grid;
use oracle::run::{list, run};
use oracle::vec2::Vec2;
use std::collections::BTreeMap;

/// Rows and triples for every plan here.
const PLENTY: Room = Room { rows: 2_000, triples: 60_000, rest: 0 };

/// A tried pass, and the cells that its crescents cleared, in order.
struct Try {
    points: Vec<(Vec2, f64)>,
    log: Vec<usize>,
}

/// What the oracle did with a piece, by its events.
#[derive(Default)]
struct Did {
    tries: Vec<Try>,
    withdrawn: usize,
    refused_links: usize,
    /// Kind and point of each link, or of the plunge.
    moves: Vec<(u32, Vec2)>,
    kept: bool,
}

impl Did {
    /// `before` is the map before the piece.
    fn new(before: &Grid, r: f64, events: Vec<Happened>) -> Did {
        let mut did = Did::default();
        for happened in events {
            match happened.event {
                Event::Tried { points, removed } => {
                    let (mut map, mut log) = (before.clone(), Vec::new());
                    for w in points.windows(2) {
                        map.clear_disk_after_logged(w[0].0, w[1].0, r, &mut log);
                    }
                    assert_eq!(log.len(), removed);
                    did.tries.push(Try { points, log });
                }
                Event::Withdrawn => did.withdrawn += 1,
                Event::RefusedLink { .. } => did.refused_links += 1,
                Event::Plunge { at } => did.moves.push((2, at)),
                Event::Link { to } => did.moves.push((3, to)),
                Event::Kept => did.kept = true,
                other => panic!("{other:?} while a piece is cut"),
            }
        }
        did
    }

    /// Triples of the longest tried pass.
    fn longest(&self) -> usize {
        self.tries.iter().map(|t| t.points.len()).max().unwrap_or(0)
    }

    /// The pass that was kept.
    fn cut(&self) -> Option<&Try> {
        self.tries.last().filter(|_| self.kept)
    }

    /// Each chunk that was kept, and how many triples it has.
    fn chunks(&self) -> Vec<(At, usize)> {
        let moves = self.moves.iter().map(|&(kind, _)| (if kind == 2 { At::Plunge } else { At::Link }, 1));
        moves.chain(self.cut().map(|t| (At::Cut, t.points.len()))).collect()
    }

    /// The least rows and triples that are enough.
    fn enough(&self, was: State) -> Room {
        let chunks = self.chunks();
        let kept = chunks.iter().map(|c| c.1).sum::<usize>();
        Room { rows: was.rows + chunks.len(), triples: was.triples + kept.max(self.longest()), rest: 0 }
    }

    /// Questions 16 and 17 of document 01: those of each tried pass, then those of each kept chunk.
    fn refusal(&self, was: State, room: Room) -> Option<(u32, At)> {
        if was.triples + self.longest() > room.triples {
            return Some((16, At::Try));
        }
        let (mut rows, mut triples) = (was.rows, was.triples);
        for (at, count) in self.chunks() {
            rows += 1;
            triples += count;
            if triples > room.triples {
                return Some((16, at));
            }
            if rows > room.rows {
                return Some((17, at));
            }
        }
        None
    }
}

/// Where a refusal is met.
#[derive(Clone, Copy, Debug, PartialEq)]
enum At {
    Try,
    Link,
    Plunge,
    Cut,
}

/// Counts of what was met.
#[derive(Default)]
struct Met(BTreeMap<String, usize>);

impl Met {
    fn add(&mut self, what: &str, count: usize) {
        *self.0.entry(what.into()).or_default() += count;
    }

    fn count(&mut self, did: &Did) {
        let plunges = did.moves.iter().filter(|m| m.0 == 2).count();
        self.add("piece", 1);
        self.add("tried", did.tries.len());
        self.add("withdrawn", did.withdrawn);
        self.add("kept", did.kept as usize);
        self.add("plunge", plunges);
        self.add("link", did.moves.len() - plunges);
        self.add("refused link", did.refused_links);
    }

    fn above(&self, bounds: &[(&str, usize)]) {
        for &(what, bound) in bounds {
            assert!(self.0.get(what).is_some_and(|&count| count > bound), "{what}: {:?}", self.0);
        }
    }
}

/// Rows, triples and log as the oracle's events leave them.
struct Want {
    rows: Vec<u32>,
    triples: Vec<f64>,
    log: Vec<u32>,
}

impl Want {
    fn put(&mut self, n: usize, q: Vec2, value: f64) {
        self.triples[3 * n..3 * n + 3].copy_from_slice(&[q.x, q.y, value]);
    }

    fn put_row(&mut self, n: usize, kind: u32, first: usize, count: usize) {
        self.rows[3 * n..3 * n + 3].copy_from_slice(&[kind, first as u32, count as u32]);
    }

    fn put_pass(&mut self, first: usize, points: &[(Vec2, f64)]) {
        for (k, &(q, e)) in points.iter().enumerate() {
            self.put(first + k, q, e);
        }
    }

    /// Each pass is tried behind what is listed, and left where the triples end.
    fn tries(&mut self, did: &Did, was: State, room: Room) {
        let free = room.triples - was.triples;
        for t in &did.tries {
            self.put_pass(was.triples, &t.points[..free.min(t.points.len())]);
            if t.points.len() > free {
                return;
            }
            for (place, &k) in self.log.iter_mut().zip(&t.log) {
                *place = k as u32;
            }
        }
    }

    /// The pass that is kept moves up behind the way to it.
    fn keep(&mut self, did: &Did, was: State) {
        let Some(cut) = did.cut() else { return };
        let first = was.triples + did.moves.len();
        for (k, &(kind, q)) in did.moves.iter().enumerate() {
            self.put(was.triples + k, q, 0.0);
            self.put_row(was.rows + k, kind, was.triples + k, 1);
        }
        self.put_pass(first, &cut.points);
        self.put_row(was.rows + did.moves.len(), 4, first, cut.points.len());
    }
}

fn bits(numbers: &[f64]) -> Vec<u64> {
    numbers.iter().map(|v| v.to_bits()).collect()
}

fn spot(pos: Option<Vec2>) -> Option<[u64; 2]> {
    pos.map(|q| [q.x.to_bits(), q.y.to_bits()])
}

fn same_cells(got: &[u8], want: &[bool]) {
    assert!(got.len() == want.len() && got.iter().zip(want).all(|(&a, &b)| a == b as u8));
}

/// Cuts each piece by the oracle, then beside it.
struct Beside<'a> {
    r: &'a mut Rng,
    lent: &'a Lent,
    met: &'a mut Met,
    mine: Cutting,
    want: Want,
}

impl<'a> Beside<'a> {
    fn new(r: &'a mut Rng, p: &Planner, lent: &'a Lent, met: &'a mut Met) -> Beside<'a> {
        let mine = Cutting::new(p, PLENTY);
        let want = Want { rows: mine.rows.clone(), triples: mine.triples.clone(), log: mine.log().to_vec() };
        Beside { r, lent, met, mine, want }
    }

    fn cut_mine(&mut self, p: &Planner, piece: &Piece, room: Room) -> Cut {
        let at = self.r.bits() as usize;
        let rest = if room.rows < PLENTY.rows { self.r.below(3) as usize } else { 0 };
        self.mine.cut_piece(p, self.lent, piece, at, Room { rest, ..room })
    }

    /// From `low` to `enough`, often just enough or one too few.
    fn limit(&mut self, low: usize, enough: usize) -> usize {
        match self.r.below(4) {
            0 => enough,
            1 => low.max(enough.saturating_sub(1)),
            _ => low + self.r.below((enough - low) as u64 + 1) as usize,
        }
    }

    /// With some rows and triples, if they are too few: the refusal, with map, dirty cells and list as they
    /// were.
    fn refuse(&mut self, p: &Planner, piece: &Piece, did: &Did, before: &Grid) {
        let was = self.mine.state;
        let enough = did.enough(was);
        let rows = self.limit(was.rows, enough.rows);
        let room = Room { rows, triples: self.limit(was.triples, enough.triples), rest: 0 };
        let Some((number, at)) = did.refusal(was, room) else { return };
        let dirty = self.mine.dirty().to_vec();
        assert_eq!(self.cut_mine(p, piece, room), Cut::Refused(number), "{at:?} {was:?} {room:?}");
        same_cells(self.mine.map(), &before.data);
        assert!(self.mine.dirty() == dirty);
        self.want.tries(did, was, room);
        if at == At::Try {
            // How much of its log a pass left before its end has is not told.
            self.want.log.copy_from_slice(self.mine.log());
        }
        self.same_lists(was, enough);
        self.met.add(&format!("{number} at {at:?}"), 1);
    }

    /// With enough rows and triples, now and then just enough.
    fn cut_beside(&mut self, p: &Planner, piece: &Piece, did: &Did) {
        let was = self.mine.state;
        let enough = did.enough(was);
        let room = if self.r.chance(0.5) { enough } else { PLENTY };
        let got = self.cut_mine(p, piece, room);
        assert_eq!(got, if did.kept { Cut::Kept } else { Cut::Nothing });
        self.want.tries(did, was, room);
        self.want.keep(did, was);
        self.same_lists(was, enough);
        self.same_state(p);
    }

    /// What a piece may change of rows, triples and log, and a place more.
    fn same_lists(&self, was: State, room: Room) {
        let rows = 3 * was.rows..3 * room.rows + 3;
        let triples = 3 * was.triples..3 * room.triples + 3;
        assert_eq!(self.mine.rows[rows.clone()], self.want.rows[rows]);
        assert_eq!(bits(&self.mine.triples[triples.clone()]), bits(&self.want.triples[triples]));
        assert!(self.mine.log() == self.want.log);
    }

    fn same_state(&self, p: &Planner) {
        let s = self.mine.state;
        assert_eq!(spot(s.pos), spot(p.pos));
        assert_eq!(s.planned_max.to_bits(), p.planned_max.to_bits());
        assert_eq!((s.rows, s.triples, s.work), (p.chunks.len(), p.hooks.kept_triples, p.work));
        same_cells(self.mine.map(), &p.m.data);
        same_cells(self.mine.dirty(), &p.dirty);
    }

    /// The whole list is the oracle's up to the helix that may end the last round, and nothing is written that
    /// no event says.
    fn same_plan(&self, p: &Planner) {
        let (rows, triples) = list(&p.chunks[..self.mine.state.rows]);
        assert_eq!(self.mine.rows[..3 * rows.len()], rows.concat());
        assert_eq!(bits(&self.mine.triples[..3 * triples.len()]), bits(&triples.concat()));
        assert!(self.mine.rows == self.want.rows && bits(&self.mine.triples) == bits(&self.want.triples));
    }
}

impl Cutter for Beside<'_> {
    fn begin(&mut self, p: &mut Planner) {
        let State { rows, triples, .. } = self.mine.state;
        for (k, chunk) in p.chunks[rows..].iter().enumerate() {
            let Chunk::Helix { center, radius } = *chunk else { panic!("{chunk:?} between rounds") };
            self.want.put(triples + k, center, radius);
            self.want.put_row(rows + k, 1, triples + k, 1);
            self.mine.put_helix(center, radius);
        }
        p.hooks.events.clear();
        self.mine.take(p);
    }

    fn cut(&mut self, p: &mut Planner, piece: &Piece) -> bool {
        let before = p.m.clone();
        let kept = p.cut_piece(piece);
        let did = Did::new(&before, p.r, std::mem::take(&mut p.hooks.events));
        assert_eq!(did.kept, kept);
        let refusals = if kept { 2 } else { self.r.below(2) };
        for _ in 0..refusals {
            self.refuse(p, piece, &did, &before);
        }
        self.cut_beside(p, piece, &did);
        self.met.count(&did);
        kept
    }
}

/// A plan that was driven to its end is the oracle's own.
fn same_as_planned(job: &Job, p: &Planner) {
    let job = Job { lent_triples: usize::MAX, lent_rows: usize::MAX, ..job.clone() };
    let (rows, triples) = list(&p.chunks);
    match run(&job, false).answer {
        Ok(plan) => {
            assert_eq!((rows, bits(&triples.concat())), (plan.rows, bits(&plan.triples.concat())));
            assert!(p.m.data == plan.map);
        }
        Err(number) => assert_eq!((number, rows.len()), (18, 0)),
    }
}

#[test]
fn whole_plans() {
    let (mut r, mut met) = (Rng(47), Met::default());
    each_job(|job| {
        with_planner(job, true, |p, lent| {
            let mut beside = Beside::new(&mut r, p, lent, &mut met);
            assert!(plan(p, 10_000, &mut beside));
            beside.same_plan(p);
            same_as_planned(job, p);
        });
    });
    met.above(&[("piece", 1_500), ("tried", 1_200), ("withdrawn", 500), ("kept", 600)]);
    met.above(&[("link", 600), ("plunge", 100), ("16 at Try", 700), ("16 at Cut", 250)]);
    met.above(&[("17 at Link", 90), ("17 at Plunge", 20), ("17 at Cut", 140)]);
}

/// Rounds on maps with holes, to some of which there is no way.
fn rounds(job: &Job, r: &mut Rng, met: &mut Met, cuts: u64, rounds: usize) {
    with_planner(job, true, |p, lent| {
        cut(r, p, cuts);
        let mut beside = Beside::new(r, p, lent, met);
        plan(p, rounds, &mut beside);
        beside.same_plan(p);
    });
}

#[test]
fn cut_maps() {
    let (mut r, mut met) = (Rng(48), Met::default());
    each_job(|job| rounds(job, &mut r, &mut met, 8, 12));
    for (_, job) in large() {
        rounds(&job, &mut r, &mut met, 20, 2);
    }
    met.above(&[("piece", 300), ("tried", 200), ("withdrawn", 60), ("kept", 150)]);
    met.above(&[("link", 120), ("plunge", 45), ("refused link", 12), ("16 at Try", 150), ("16 at Cut", 60)]);
    met.above(&[("17 at Link", 15), ("17 at Plunge", 6), ("17 at Cut", 30)]);
}
