//! Times the proved `cut_piece` beside the oracle's, piece by piece along plans of the larger jobs: `cargo run
//! --release --bin bench_cutting`.
use compare::cutting::{Cut, Cutting, Room};
use compare::geom::Lent;
use compare::planners::{Cutter, each_large, plan};
use compare::timing::least;
use oracle::planner::{Piece, Planner};

const ROUNDS: usize = 40;
const ROOM: Room = Room { rows: 20_000, triples: 1_000_000, rest: 0 };

/// Cuts every piece by both, and sums their times in ms.
struct Timed<'a> {
    lent: &'a Lent,
    proved: Cutting,
    pieces: usize,
    kept: usize,
    want: f64,
    got: f64,
}

impl Cutter for Timed<'_> {
    fn begin(&mut self, p: &mut Planner) {
        self.proved.take(p);
    }

    fn cut(&mut self, p: &mut Planner, piece: &Piece) -> bool {
        let mut got = Cut::Nothing;
        self.got += least(1, || got = self.proved.cut_piece(p, self.lent, piece, 0, ROOM));
        let mut want = false;
        self.want += least(1, || want = p.cut_piece(piece));
        assert_eq!(got == Cut::Kept, want);
        self.pieces += 1;
        self.kept += want as usize;
        want
    }
}

fn main() {
    let (mut theirs, mut ours) = (0.0, 0.0);
    println!("job, pieces, passes kept, ms: the oracle's and the proved");
    each_large(|name, _, p, lent| {
        let proved = Cutting::new(p, ROOM);
        let mut timed = Timed { lent, proved, pieces: 0, kept: 0, want: 0.0, got: 0.0 };
        plan(p, ROUNDS, &mut timed);
        let Timed { pieces, kept, want, got, .. } = timed;
        println!("{name:16} {pieces:4} {kept:4} {want:9.3} {got:9.3}");
        theirs += want;
        ours += got;
    });
    println!("of the oracle's time: {:.2}", ours / theirs);
}
