//! Whole jobs that are damaged or extreme: at and just beside each limit of document 01, floats that are special, lists
//! that are torn, slices longer than a u32 can count.
use compare::drawn::{Size, drawn};
use compare::extreme::{cases, point};
use compare::planner::{Slices, adaptive_clear, params};
use compare::raw::workspace;
use compare::reserved::Reserved;
use oracle::generate::Rng;

/// The answers that document 01 gives, and the oracle's.
#[test]
fn limits_of_the_questions() {
    let (mut r, mut met) = (Rng(61), [0usize; 18]);
    let cases = cases();
    for case in &cases {
        case.check(&mut r).unwrap_or_else(|fault| panic!("{fault}"));
        met[case.want as usize] += 1;
    }
    println!("{} cases, by answer: {met:?}", cases.len());
    assert!(cases.len() >= 600 && met.iter().all(|&m| m > 0), "{met:?}");
}

/// As many jobs of a kind, each answer that is to be met among them.
fn some(kind: &str, jobs: u64, answers: &[usize]) {
    let mut met = [0usize; 19];
    for bits in 0..jobs {
        let same = drawn(bits, kind, Size { engagement: 35.0, cells: 8_000 });
        met[same.unwrap_or_else(|fault| panic!("{fault}")).number as usize] += 1;
    }
    println!("{kind}, by answer: {met:?}");
    assert!(answers.iter().all(|&answer| met[answer] > 0), "{met:?}");
}

#[test]
fn special_floats() {
    some("extreme", 500, &[0, 1, 2, 3, 4, 5, 6, 7, 8, 9, 10, 11, 12, 13, 14]);
}

#[test]
fn torn_lists() {
    some("torn", 400, &[0, 13, 15]);
}

/// The answer to the job of a point with these lists, and just enough lent.
fn answer(vertices: &mut [u64], lengths: &mut [u32], regions: &mut [u32]) -> u32 {
    let job = point();
    let [bytes, words, singles, doubles] = workspace(&job);
    let lent = Slices {
        vertices,
        lengths,
        regions,
        bytes: &mut vec![0; bytes],
        words: &mut vec![0; words],
        singles: &mut vec![0; singles],
        doubles: &mut vec![0; doubles],
        rows: &mut [],
        triples: &mut [],
    };
    adaptive_clear(&params(&job.params, 0.0), false, lent).refused
}

/// Lists whose lengths fit only where they are cut to 32 bits.
#[test]
fn lists_longer_than_a_u32_counts() {
    const MORE: usize = 1 << 32;
    assert_eq!(answer(&mut [0; 6], &mut [3], &mut [1]), 0);
    let (vertices, numbers) = (Reserved::<u64>::new(MORE + 6), Reserved::<u32>::new(MORE + 1));
    let (Some(mut vertices), Some(mut numbers)) = (vertices, numbers) else {
        println!("the system has no room for such lists: skipped");
        return;
    };
    assert_eq!(answer(vertices.slice(), &mut [3], &mut [1]), 13);
    numbers.slice()[0] = 3;
    assert_eq!(answer(&mut [0; 6], numbers.slice(), &mut [1]), 13);
    numbers.slice()[0] = 1;
    assert_eq!(answer(&mut [0; 6], &mut [3], numbers.slice()), 13);
}
