//! Passes tried along the planners' own guides, against the oracle's: points, contacts, cells, work, map.
use compare::bits::Bits;
use compare::passes::Trials;
use compare::planners::{cut, each};
use oracle::generate::Rng;
use oracle::planner::{Planner, smooth};
use oracle::vec2::Vec2;

fn bits(points: &[(Vec2, f64)]) -> Vec<[u64; 3]> {
    points.iter().map(|(q, e)| [q.x.bits(), q.y.bits(), e.bits()]).collect()
}

/// The guides of a round: pieces of the field and of the ring, open and walked round from any point, as they
/// are and bent out at their start.
fn guides(r: &mut Rng, p: &mut Planner) -> Vec<Vec<Vec2>> {
    let dist = p.material_distance();
    let f = p.field(&dist);
    let ring: Vec<f32> = p.allowed.iter().map(|&a| if a { 0.0 } else { 1.0 }).collect();
    let mut pieces = p.contours(&f, (2.0 * p.target) as f32);
    pieces.extend(p.contours(&ring, 0.5));
    let mut guides = Vec::new();
    for mut piece in pieces {
        smooth(&mut piece.pts, piece.closed, p.cell);
        if piece.closed {
            let s = r.below(piece.pts.len() as u64) as usize;
            piece.pts.rotate_left(s);
            piece.pts.push(piece.pts[0]);
        }
        guides.extend(p.blend_in(&piece.pts));
        guides.push(piece.pts);
    }
    guides
}

#[test]
fn passes() {
    let (mut tried, mut points, mut removed, mut full) = (0, 0, 0, 0);
    each(|r, p, lent| {
        for _ in 0..8 {
            cut(r, p, 6);
            let mut mine = Trials::new(p, 100_000);
            for guide in guides(r, p) {
                let before = p.work;
                let (cut, gone, log) = p.simulate(&guide);
                let got = mine.simulate(p, lent, &guide, r.below(3) as usize);
                assert!(!got.full);
                assert_eq!(bits(&got.points), bits(&cut));
                assert_eq!(got.log, log);
                assert_eq!((got.log.len(), got.work), (gone, p.work - before));
                assert!(mine.map.iter().zip(&p.m.data).all(|(&a, &b)| a == b as u8));
                tried += 1;
                points += cut.len();
                removed += gone;
                if r.chance(0.7) {
                    p.undo(&log);
                    mine.undo(&got);
                    // With a triple too few the same pass is full.
                    let end = Trials::new(p, cut.len() - 1).simulate(p, lent, &guide, 0);
                    assert!(end.full && end.points.len() == cut.len() - 1);
                    full += 1;
                }
            }
        }
    });
    assert!(
        tried > 500 && points > 30_000 && removed > 20_000 && full > 300,
        "{tried} {points} {removed} {full}"
    );
}
