//! Times the proved way beside the oracle's on the larger jobs after some cuts: `cargo run --release --bin
//! bench_links`. The ways have to take at most the oracle's time.
use compare::links::Ways;
use compare::planners::{each_large, point};
use compare::timing::least;
use oracle::vec2::Vec2;
use std::hint::black_box;

fn main() {
    let (mut theirs, mut ours) = (0.0, 0.0);
    println!("job, ways, those searched, ms: the oracle's and the proved");
    each_large(|name, r, p, lent| {
        let map: Vec<u8> = p.m.data.iter().map(|&b| b as u8).collect();
        let mut ways = Ways::new(p);
        let clear: Vec<Vec2> =
            (0..2_000).map(|_| point(r, p)).filter(|&q| p.allowed_at(q) && p.free(q)).take(16).collect();
        let pairs: Vec<(Vec2, Vec2)> = clear.chunks_exact(2).map(|q| (q[0], q[1])).collect();
        let searched = pairs.iter().filter(|&&(a, b)| ways.link_path(p, lent, &map, a, b).work > 0).count();
        let want = least(3, || {
            for &(a, b) in &pairs {
                black_box(p.link_path(a, b));
            }
        });
        let got = least(3, || {
            for &(a, b) in &pairs {
                black_box(ways.link_path(p, lent, &map, a, b).work);
            }
        });
        println!("{name:16} {:3} {searched:3} {want:9.3} {got:9.3}", pairs.len());
        theirs += want;
        ours += got;
    });
    println!("of the oracle's time: {:.2}", ours / theirs);
    assert!(ours <= theirs, "ways take longer than the oracle's");
}
