//! The two orders of equally near pieces: the next piece of small lists, by hand; the plans of stored and of generated jobs.
use oracle::expected::expected;
use oracle::generate;
use oracle::hooks::Hooks;
use oracle::job::Job;
use oracle::order::Places;
use oracle::planner::Piece;
use oracle::run::{Outcome, fingerprint_line, print, run};
use oracle::stored::{quick, stored};
use oracle::switches::{self, Switches};
use oracle::vec2::Vec2;

/// Works as printed, then by the changed order.
fn by_both<T>(mut work: impl FnMut() -> T) -> [T; 2] {
    let usual = Switches::default();
    [usual, Switches { longer_first: true, ..usual }].map(|how| switches::with(how, &mut work))
}

/// The places chosen of a list of distances and numbers of points. The choice is counted where they are two.
fn chosen(list: &[(f64, usize)]) -> [Option<usize>; 2] {
    let pieces: Vec<Piece> =
        list.iter().map(|&(_, points)| Piece { pts: vec![Vec2::ZERO; points], closed: true }).collect();
    let mut hooks = Hooks::new(0, 0, false);
    let places = list.iter().map(|&(distance, _)| distance).enumerate();
    let both = by_both(|| places.clone().next_piece(&pieces, &mut hooks).map(|(k, _)| k));
    assert_eq!(hooks.parted, if both[0] == both[1] { 0 } else { 2 }, "{list:?}");
    both
}

/// Whatever points they have; the order of distances is that of `total_cmp`.
#[test]
fn the_nearest_is_next() {
    assert_eq!(chosen(&[]), [None; 2]);
    for (list, place) in [
        (&[(7.5, 4)][..], 0),
        (&[(0.5, 2), (1.0, 90)], 0),
        (&[(1.0, 90), (0.5, 2), (0.5f64.next_up(), 90)], 1),
        (&[(-0.0, 2), (0.0, 90)], 0),
        (&[(0.0, 90), (-0.0, 2)], 1),
        (&[(f64::NAN, 90), (f64::INFINITY, 2)], 1),
        (&[(f64::NEG_INFINITY, 90), (-f64::NAN, 2)], 1),
    ] {
        assert_eq!(chosen(list), [Some(place); 2], "{list:?}");
    }
}

#[test]
fn of_equally_near_ones() {
    for (list, printed, changed) in [
        // More points, wherever they stand.
        (&[(1.0, 3), (1.0, 4)][..], 0, 1),
        (&[(1.0, 4), (1.0, 3)], 0, 0),
        (&[(1.0, 3), (1.0, 5), (1.0, 4)], 0, 1),
        (&[(2.0, 90), (1.0, 3), (1.5, 90), (1.0, 4)], 1, 3),
        // As many: the earlier.
        (&[(1.0, 4), (1.0, 4)], 0, 0),
        (&[(1.0, 3), (1.0, 4), (1.0, 4)], 0, 1),
        (&[(2.0, 9), (1.0, 4), (1.0, 4), (1.0, 3)], 1, 1),
        // Equal to the last bit.
        (&[(f64::INFINITY, 3), (f64::INFINITY, 4)], 0, 1),
        (&[(f64::NAN, 3), (f64::NAN, 4)], 0, 1),
    ] {
        assert_eq!(chosen(list), [Some(printed), Some(changed)], "{list:?}");
    }
}

fn text(outcome: &Outcome) -> String {
    print(outcome, false)
}

/// Both runs of a job whose fills agree.
fn both_runs(job: &Job) -> [Outcome; 2] {
    by_both(|| run(job, false))
}

/// Stored jobs whose plan the order changes, open pieces and closed ones. The fingerprints are of the planner whose choice is
/// the printed line itself.
#[test]
fn plans_that_the_order_changes() {
    for (name, as_printed) in [
        ("45004-mirrored", "accepted 4f2fa55b9298aa9b"),
        ("45025-mirrored", "accepted 757ff0a37e451813"),
        ("45045-mirrored", "accepted 855a8ee912ac9b64"),
    ] {
        let job = stored(name);
        let [printed, changed] = both_runs(&job);
        assert_eq!(fingerprint_line(&text(&printed)), as_printed, "{name}");
        assert_ne!(text(&printed), text(&changed), "{name}");
        assert!(printed.parted > 0 && changed.parted > 0, "{name}");
        let expected = expected(&job, false);
        assert!(expected.fills_agree && !expected.orders_agree, "{name}");
        assert_eq!(text(&expected.outcome), text(&changed), "{name}");
    }
}

/// Both differences in one job: by the changed fill the order changes the plan.
#[test]
fn fill_and_order() {
    let expected = expected(&stored("45031-mirrored"), false);
    assert!(!expected.fills_agree && !expected.orders_agree);
}

/// The longer piece is the earlier one, or both are as long: the print's answer is expected.
#[test]
fn plans_that_the_order_leaves() {
    for name in ["45044-mirrored", "45055-mirrored"] {
        let job = stored(name);
        let [printed, changed] = both_runs(&job).map(|outcome| text(&outcome));
        let expected = expected(&job, false);
        assert!(expected.fills_agree && expected.orders_agree, "{name}");
        assert_eq!([&text(&expected.outcome), &changed], [&printed; 2], "{name}");
    }
}

/// Where no choice parts the changed order gives the same plan, as `expected` takes it to.
#[test]
fn without_a_parted_choice_the_plans_are_the_same() {
    let mut met = [0; 2];
    for seed in 0..40 {
        let (job, _) = generate::job(seed, Some("mirrored")).unwrap();
        if !quick(&job) {
            continue;
        }
        let [printed, changed] = both_runs(&job);
        let parted = printed.parted > 0;
        assert!(parted || text(&printed) == text(&changed), "seed {seed}");
        met[parted as usize] += 1;
    }
    println!("without a parted choice {} jobs, with {}", met[0], met[1]);
    assert!(met[0] > 10 && met[1] > 10);
}
