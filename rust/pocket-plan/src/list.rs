//! The list as text: a line a triple, its fields parted by tabs, under a line of their names.
use crate::scene::Scene;
use std::fmt::Write;

/// A kind's word, by its number less 1.
const KINDS: [&str; 4] = ["helix", "plunge", "link", "cut"];

/// Rows are numbered from 0. Numbers are decimals that give the same bits when they are read.
pub fn list(scene: &Scene) -> String {
    let mut s = String::from("row\tkind\tx\ty\tvalue\n");
    for (k, &[kind, first, count]) in scene.plan.rows.iter().enumerate() {
        let word = KINDS[kind as usize - 1];
        for [x, y, value] in &scene.plan.triples[first as usize..][..count as usize] {
            let _ = writeln!(s, "{k}\t{word}\t{x}\t{y}\t{value}");
        }
    }
    s
}
