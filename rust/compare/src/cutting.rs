//! A piece cut by the layer `cutting`, with what it requires as assertions: a workspace that is filled from
//! a planner, the lent rows and triples, and the state that planning holds by value.
use crate::geom::Lent;
use crate::planners::sided;
use crate::setup::fill_tables;
use oracle::planner::{Piece, Planner};
use oracle::vec2::{Vec2, v2};

mod linked {
    unsafe extern "C" {
        pub fn cutting_cut_piece(
            ox: f64,
            oy: f64,
            cell: f64,
            nx: usize,
            ny: usize,
            vs: *const f64,
            vs_len: usize,
            lens: *const u32,
            lens_len: usize,
            at: usize,
            first: usize,
            loops: usize,
            r: f64,
            wide: f64,
            keep: f64,
            target: f64,
            guard: f64,
            samples: usize,
            keep_down: bool,
            down: bool,
            x: f64,
            y: f64,
            listed_rows: usize,
            listed_triples: usize,
            planned_max: f64,
            work: usize,
            b: *mut u8,
            b_len: usize,
            u: *mut u32,
            u_len: usize,
            w: *mut f64,
            w_len: usize,
            triples: *mut f64,
            triples_len: usize,
            rows: *mut u32,
            rows_len: usize,
            from: usize,
            m: usize,
            closed: bool,
            counts: *mut u64,
            counts_len: usize,
            floats: *mut f64,
            floats_len: usize,
        ) -> u32;
    }
}

/// Where the tool is, what is listed, the greatest contact of a listed point, and the work.
#[derive(Clone, Copy, Debug)]
pub struct State {
    pub pos: Option<Vec2>,
    pub rows: usize,
    pub triples: usize,
    pub planned_max: f64,
    pub work: usize,
}

#[derive(Clone, Copy, Debug, PartialEq)]
pub enum Cut {
    Nothing,
    Kept,
    Refused(u32),
}

/// How many rows and triples are lent; a rest of one or two numbers counts for none.
#[derive(Clone, Copy, Debug)]
pub struct Room {
    pub rows: usize,
    pub triples: usize,
    pub rest: usize,
}

/// What `cut_piece` is lent, a run of N places a region as setup's layout has them, and the state.
pub struct Cutting {
    n: usize,
    b: Vec<u8>,
    u: Vec<u32>,
    w: Vec<f64>,
    pub rows: Vec<u32>,
    pub triples: Vec<f64>,
    pub state: State,
}

impl Cutting {
    /// A workspace with the planner's walls and tables, and room for rows and triples, of which none is listed.
    pub fn new(p: &Planner, room: Room) -> Cutting {
        sided(p);
        let n = p.nx * p.ny;
        let mut w = vec![-1e300; 32 * n + 8192];
        w[..n].copy_from_slice(&p.wall_dist);
        fill_tables(p, p.r_guard, &mut w[24 * n..]);
        Cutting {
            n,
            b: vec![7; 8 * n],
            u: vec![7; 32 * n + 8192],
            w,
            rows: vec![7; 3 * room.rows],
            triples: vec![-1e300; 3 * room.triples],
            state: State { pos: None, rows: 0, triples: 0, planned_max: 0.0, work: 0 },
        }
    }

    /// Takes over the planner's cells, its tool's place and its work, but not what it has listed.
    pub fn take(&mut self, p: &Planner) {
        for (region, cells) in [(0, &p.m.data), (1, &p.allowed), (4, &p.dirty)] {
            for (byte, &cell) in self.b[region * self.n..].iter_mut().zip(cells) {
                *byte = cell as u8;
            }
        }
        self.state = State { pos: p.pos, planned_max: p.planned_max, work: p.work, ..self.state };
    }

    /// Lists a helix, which stands between pieces.
    pub fn put_helix(&mut self, center: Vec2, radius: f64) {
        let State { rows, triples, .. } = self.state;
        self.rows[3 * rows..3 * rows + 3].copy_from_slice(&[1, triples as u32, 1]);
        self.triples[3 * triples..3 * triples + 3].copy_from_slice(&[center.x, center.y, radius]);
        self.state = State { rows: rows + 1, triples: triples + 1, ..self.state };
    }

    pub fn map(&self) -> &[u8] {
        &self.b[..self.n]
    }

    pub fn dirty(&self) -> &[u8] {
        &self.b[4 * self.n..5 * self.n]
    }

    /// Each tried pass has logged its cells from the first place on.
    pub fn log(&self) -> &[u32] {
        &self.u[24 * self.n..25 * self.n]
    }

    /// Lays the piece's points somewhere among those that were traced, as `at` has it; where.
    fn lay(&mut self, piece: &Piece, at: usize) -> usize {
        let (n, m) = (self.n, piece.pts.len());
        assert!(m >= 1 && 2 * m <= 4 * n);
        let from = n + at % (4 * n - 2 * m + 1);
        for (place, q) in self.w[from..].chunks_mut(2).zip(&piece.pts) {
            place.copy_from_slice(&[q.x, q.y]);
        }
        from
    }

    /// `cut_piece` of the fields that a planner has, the piece laid as `at` has it. A refusal leaves the state.
    pub fn cut_piece(&mut self, p: &Planner, lent: &Lent, piece: &Piece, at: usize, room: Room) -> Cut {
        let n = self.n;
        lent.held();
        assert!(n == p.nx * p.ny && p.samples <= 2048);
        assert!(self.b.len() >= 8 * n && self.u.len() >= 32 * n + 8192 && self.w.len() >= 32 * n + 8192);
        assert!(self.state.rows <= room.rows && self.state.triples <= room.triples);
        assert!(room.rows.max(room.triples) < u32::MAX as usize && room.rest < 3);
        let from = self.lay(piece, at);
        let rows = &mut self.rows[..3 * room.rows + room.rest];
        let triples = &mut self.triples[..3 * room.triples + room.rest];
        let here = self.state.pos.unwrap_or(Vec2::ZERO);
        let (mut counts, mut floats) = ([0u64; 4], [0.0; 3]);
        let kind = unsafe {
            linked::cutting_cut_piece(
                p.m.origin.x,
                p.m.origin.y,
                p.cell,
                p.nx,
                p.ny,
                lent.vs.as_ptr(),
                lent.vs.len(),
                lent.lens.as_ptr(),
                lent.lens.len(),
                lent.at,
                lent.first,
                lent.loops,
                p.r,
                p.r_guard,
                p.keep,
                p.target,
                p.guard,
                p.samples,
                p.keep_down,
                self.state.pos.is_some(),
                here.x,
                here.y,
                self.state.rows,
                self.state.triples,
                self.state.planned_max,
                self.state.work,
                self.b.as_mut_ptr(),
                self.b.len(),
                self.u.as_mut_ptr(),
                self.u.len(),
                self.w.as_mut_ptr(),
                self.w.len(),
                triples.as_mut_ptr(),
                triples.len(),
                rows.as_mut_ptr(),
                rows.len(),
                from,
                piece.pts.len(),
                piece.closed,
                counts.as_mut_ptr(),
                counts.len(),
                floats.as_mut_ptr(),
                floats.len(),
            )
        };
        if kind > 1 {
            return Cut::Refused(kind);
        }
        let [down, rows, triples, work] = counts.map(|v| v as usize);
        let [x, y, planned_max] = floats;
        self.state = State { pos: (down == 1).then_some(v2(x, y)), rows, triples, planned_max, work };
        if kind == 1 { Cut::Kept } else { Cut::Nothing }
    }
}
