//! The proved heap against the standard one with the oracle's order of nodes: each pop, bit for bit; and
//! ways against the oracle's.
use std::collections::BinaryHeap;

use compare::bits::Bits;
use compare::links::{Heap, Ways};
use compare::planners::{each, point};
use oracle::generate::Rng;
use oracle::planner::{Node, Planner};
use oracle::switches::{self, Switches};
use oracle::vec2::Vec2;

/// The link search keeps its nodes by the estimate's negative, since the standard heap pops the greatest.
fn same_pop(heap: &mut Heap, want: &mut BinaryHeap<Node>) {
    let got = heap.pop().map(|(est, node)| (est.to_bits(), node as usize));
    let want = want.pop().map(|node| ((-node.f).to_bits(), node.id));
    assert_eq!(got, want);
}

/// Pushes and pops at random, then pops all; how many calls it made.
fn run(r: &mut Rng, calls: usize, pushes: f64, est: impl Fn(&mut Rng) -> f64, nodes: u64) -> usize {
    let mut heap = Heap::new(calls);
    let mut want = BinaryHeap::new();
    for _ in 0..calls {
        if r.chance(pushes) {
            let (est, node) = (est(r), r.below(nodes) as u32);
            heap.push(est, node);
            want.push(Node { f: -est, id: node as usize });
        } else {
            same_pop(&mut heap, &mut want);
        }
        assert_eq!(heap.len(), want.len());
    }
    let left = heap.len();
    for _ in 0..left {
        same_pop(&mut heap, &mut want);
    }
    assert!(heap.is_empty() && want.is_empty());
    calls + left
}

#[test]
fn pops_as_the_standard_heap() {
    let mut r = Rng(6);
    let mut calls = 0;
    for round in 0..400 {
        let size = r.below(1_500) as usize + 1;
        let pushes = r.pick(&[0.5, 0.6, 0.9, 1.0]);
        calls += match round % 5 {
            // Distances over a lattice, where different ways add up to equal sums.
            0 => run(&mut r, size, pushes, |r| (r.below(40) as f64).hypot(r.below(40) as f64), 1_000),
            1 => run(&mut r, size, pushes, |r| r.below(3) as f64, 20),
            2 => run(&mut r, size, pushes, |r| r.range(0.0, 1e3), u64::from(u32::MAX) + 1),
            3 => run(
                &mut r,
                size,
                pushes,
                |r| r.pick(&[0.0, -0.0, 1.0, -1.0, f64::INFINITY, f64::MIN_POSITIVE]),
                4,
            ),
            // Any float but a NaN.
            _ => run(
                &mut r,
                size,
                pushes,
                |r| Some(f64::from_bits(r.bits())).filter(|x| !x.is_nan()).unwrap_or(0.5),
                8,
            ),
        };
    }
    assert!(calls > 100_000, "{calls} calls");
}

#[test]
fn equal_estimates_rise_and_fall() {
    for up in [true, false] {
        let n = 5_000u32;
        let mut heap = Heap::new(n as usize);
        for k in 0..n {
            heap.push(2.5, if up { k } else { n - 1 - k });
        }
        for k in 0..n {
            assert_eq!(heap.pop(), Some((2.5, k)));
        }
        assert_eq!(heap.pop(), None);
    }
}

/// A point where the tool may be and touches nothing, if one is met.
fn clear(r: &mut Rng, p: &Planner) -> Option<Vec2> {
    (0..200).map(|_| point(r, p)).find(|&q| p.allowed_at(q) && p.free(q))
}

/// `ties` counts the ways that another order of equal estimates would change.
#[test]
fn ways() {
    let (mut found, mut searched, mut long, mut ties, mut calls) = (0, 0, 0, 0, 0);
    each(|r, p, lent| {
        let map: Vec<u8> = p.m.data.iter().map(|&b| b as u8).collect();
        let mut ways = Ways::new(p);
        for _ in 0..120 {
            let (Some(a), Some(b)) = (clear(r, p), clear(r, p)) else { break };
            // Now and then an end where the tool may not be, or off the raster.
            let b = if r.chance(0.1) { point(r, p) } else { b };
            let before = p.work;
            let want = p.link_path(a, b);
            let got = ways.link_path(p, lent, &map, a, b);
            let bits = |q: &Vec2| [q.x.bits(), q.y.bits()];
            let listed = |w: &Option<Vec<Vec2>>| w.as_ref().map(|w| w.iter().map(bits).collect::<Vec<_>>());
            assert_eq!(listed(&got.points), listed(&want), "{a:?} {b:?}");
            assert_eq!(got.work, p.work - before);
            switches::set(Switches { higher_first: true, ..Switches::default() });
            ties += (listed(&p.link_path(a, b)) != listed(&want)) as usize;
            switches::set(Switches::default());
            found += want.is_some() as usize;
            searched += (got.work > 0) as usize;
            long += want.is_some_and(|w| w.len() > 1) as usize;
            calls += 1;
        }
    });
    let met = format!("{calls} {searched} {found} {long} {ties}");
    assert!(calls > 4_000 && searched > 500 && found > 4_000 && long > 100 && ties > 0, "{met}");
}
