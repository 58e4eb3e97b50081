//! The field round by round, and the pieces of fields and their smoothing, against the oracle's: the
//! planner's own fields, and made ones with levels that equal a field value, saddles and cells where
//! there is no number.
use compare::bits::Bits;
use compare::contours::{Space, smoothed};
use compare::field::Rounds;
use compare::planners::{cut, each};
use oracle::generate::Rng;
use oracle::planner::{Piece, Planner, smooth};
use oracle::vec2::v2;

fn same(got: &[Piece], want: &[Piece]) {
    assert_eq!(got.len(), want.len());
    for (a, b) in got.iter().zip(want) {
        assert_eq!(a.closed, b.closed);
        let bits = |p: &Piece| p.pts.iter().map(|q| [q.x.bits(), q.y.bits()]).collect::<Vec<_>>();
        assert_eq!(bits(a), bits(b));
    }
}

/// Counts of what the pieces met.
#[derive(Default)]
struct Met {
    pieces: usize,
    closed: usize,
    points: usize,
}

impl Met {
    fn check(&mut self, space: &mut Space, p: &Planner, f: &[f32], level: f32) {
        let mut want = p.contours(f, level);
        let m = space.trace(p, f, level);
        same(&space.pieces(m), &want);
        self.pieces += want.len();
        self.closed += want.iter().filter(|p| p.closed).count();
        self.points += want.iter().map(|p| p.pts.len()).sum::<usize>();
        space.smooth(m, p.cell);
        for piece in &mut want {
            smooth(&mut piece.pts, piece.closed, p.cell);
        }
        same(&space.pieces(m), &want);
    }
}

/// Rounds of cutting: the field worked out anew, then only near the cells that were cut.
#[test]
fn fields() {
    let (mut sampled, mut cells, mut rounds) = (0, 0, 0);
    each(|r, p, _| {
        let mut mine = Rounds::new(p);
        for _ in 0..6 {
            mine.take(p);
            let dist = p.material_distance();
            let (all, before) = (p.all_dirty, p.work);
            let want = p.field(&dist);
            let got = mine.field(p, all);
            assert!(mine.values().iter().zip(&want).all(|(a, b)| a.bits() == b.bits()));
            assert_eq!(got * p.samples, p.work - before);
            assert!(mine.dirty().iter().all(|&d| d == 0));
            sampled += got;
            cells += want.len();
            rounds += 1;
            cut(r, p, 6);
            // As a helix leaves it.
            p.all_dirty = r.chance(0.1);
        }
    });
    assert!(rounds > 150 && sampled > 30_000, "{rounds} {sampled} of {cells}");
}

#[test]
fn pieces_of_planned_fields() {
    let mut met = Met::default();
    each(|r, p, _| {
        let mut space = Space::new(p.nx * p.ny);
        for _ in 0..4 {
            let dist = p.material_distance();
            let f = p.field(&dist);
            for level in [(2.0 * p.target) as f32, 0.5, std::f32::consts::PI] {
                met.check(&mut space, p, &f, level);
            }
            cut(r, p, 8);
        }
        let ring: Vec<f32> = p.allowed.iter().map(|&a| if a { 0.0 } else { 1.0 }).collect();
        met.check(&mut space, p, &ring, 0.5);
    });
    assert!(
        met.pieces > 200 && met.closed > 50 && met.points > 30_000,
        "{} {} {}",
        met.pieces,
        met.closed,
        met.points
    );
}

/// A value of the kinds that are made: few different ones, so that levels equal them.
fn value(r: &mut Rng, kind: u64) -> f32 {
    match kind {
        0 => r.below(2) as f32,
        1 => 0.25 * r.below(5) as f32,
        2 => r.pick(&[0.0, 0.5, 1.0, f32::NAN]),
        3 => 0.5 + r.pick(&[0.0, 1e-7, -1e-7, 3e-8, 1.0]),
        4 => r.pick(&[0.0, -0.0, 1.0, f32::INFINITY, f32::NEG_INFINITY, f32::MAX, f32::MIN_POSITIVE]),
        _ => r.range(-1.0, 2.0) as f32,
    }
}

#[test]
fn pieces_of_made_fields() {
    let mut met = Met::default();
    each(|r, p, _| {
        let n = p.nx * p.ny;
        let mut space = Space::new(n);
        for kind in 0..6 {
            let mut f: Vec<f32> = (0..n).map(|_| value(r, kind)).collect();
            // A calm half, so that chains grow long.
            for v in f.iter_mut().take(n / 2) {
                if r.chance(0.98) {
                    *v = 0.0;
                }
            }
            met.check(&mut space, p, &f, 0.5);
        }
    });
    assert!(met.pieces > 100_000 && met.closed > 10_000, "{} {} {}", met.pieces, met.closed, met.points);
}

/// Short lists of few different numbers, zeros of both signs, infinities and NaN among them.
#[test]
fn made_points_smoothed() {
    let mut r = Rng(43);
    let mut points = 0;
    for _ in 0..300_000 {
        let n = r.below(9) as usize;
        let kind = r.below(3);
        let mut number = || match kind {
            0 => r.range(-2.0, 2.0),
            1 => r.pick(&[0.0, -0.0, 0.5, 1.0]),
            _ => r.pick(&[0.0, -0.0, 1.0, f64::NAN, f64::INFINITY, f64::NEG_INFINITY, 1e308]),
        };
        let mut pts: Vec<_> = (0..n).map(|_| v2(number(), number())).collect();
        let cell = r.pick(&[0.0, 0.1, 0.5, 1.0, f64::NAN, f64::INFINITY, -1.0]);
        let closed = r.chance(0.5);
        let got = Piece { pts: smoothed(&pts, closed, cell), closed };
        smooth(&mut pts, closed, cell);
        points += pts.len();
        same(&[got], &[Piece { pts, closed }]);
    }
    assert!(points > 100_000, "{points}");
}
