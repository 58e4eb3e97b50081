//! Times the proved field with its distance to stock, pieces and smoothing beside the oracle's, which has a
//! table of rim directions too, on the larger jobs after some cuts: `cargo run --release --bin
//! bench_contours`. The field has to take at most the oracle's time.
use compare::bits::Bits;
use compare::contours::Space;
use compare::field::Rounds;
use compare::planners::each_large;
use compare::timing::least;
use oracle::planner::smooth;
use std::hint::black_box;

fn main() {
    let (mut theirs, mut ours) = ([0.0; 3], [0.0; 3]);
    println!("job, ms of field, pieces, smoothing: the oracle's and the proved");
    each_large(|name, _, p, _| {
        let level = (2.0 * p.target) as f32;
        let mut mine = Rounds::new(p);
        mine.take(p);
        let mut space = Space::new(p.nx * p.ny);
        let mut f = Vec::new();
        let mut made = Vec::new();
        let want = [
            least(5, || {
                p.all_dirty = true;
                let dist = p.material_distance();
                f = p.field(black_box(&dist));
            }),
            least(5, || made = p.contours(black_box(&f), level)),
            least(1, || {
                for piece in &mut made {
                    smooth(&mut piece.pts, piece.closed, p.cell);
                }
            }),
        ];
        let mut m = 0;
        let got = [
            least(5, || {
                black_box(mine.field(p, true));
            }),
            least(5, || m = space.trace(p, black_box(&f), level)),
            least(1, || space.smooth(m, p.cell)),
        ];
        assert!(mine.values().iter().zip(&f).all(|(a, b)| a.bits() == b.bits()));
        print!("{name:16}");
        for k in 0..3 {
            print!(" {:8.3} {:8.3}", want[k], got[k]);
            theirs[k] += want[k];
            ours[k] += got[k];
        }
        println!();
    });
    let share: Vec<f64> = (0..3).map(|k| ours[k] / theirs[k]).collect();
    println!(
        "of the oracle's time: field {:.2}, pieces {:.2}, smoothing {:.2}",
        share[0], share[1], share[2]
    );
    assert!(share[0] <= 1.0, "the field takes longer than the oracle's");
}
