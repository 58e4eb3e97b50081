//! Every rule of term 3 by replay, on generated jobs; and that the replay finds damage.
use oracle::expected::{Expected, expected};
use oracle::generate;
use oracle::hooks::Event;
use oracle::job::Job;
use oracle::replay::{self, faults};
use oracle::run::{Outcome, Plan, print, run};
use oracle::stored::{quick, stored};
use oracle::switches::{self, Switches};
use std::sync::OnceLock;
use std::sync::atomic::{AtomicUsize, Ordering};

/// Jobs of all kinds, apart from the stored ones, on two threads; each by the fill and in the order that are expected.
#[test]
fn generated_jobs_replay_without_a_fault() {
    let mut seeds: Vec<(u64, Option<&str>)> = (1000..1448).map(|seed| (seed, None)).collect();
    seeds.extend(generate::NAMED.iter().flat_map(|kind| (1000..1020).map(move |seed| (seed, Some(*kind)))));
    let next = AtomicUsize::new(0);
    let worker = || {
        let mut met = [0; 7];
        while let Some(&(seed, kind)) = seeds.get(next.fetch_add(1, Ordering::Relaxed)) {
            let (job, kind) = generate::job(seed, kind).unwrap();
            if !quick(&job) {
                continue;
            }
            let Expected { outcome, fills_agree, orders_agree } = expected(&job, true);
            let how = Switches { fill_contains: !fills_agree, ..Switches::default() };
            let found = switches::with(how, || faults(&job, &outcome));
            assert!(found.is_empty(), "seed {seed} {kind}: {:?}", &found[..found.len().min(5)]);
            met[0] += 1;
            if let Ok(plan) = &outcome.answer {
                let withdrawn = outcome.events.iter().filter(|h| h.event == Event::Withdrawn).count();
                let filled = !fills_agree && !plan.rows.is_empty();
                for (met, more) in met[1..].iter_mut().zip([
                    1,
                    filled as usize,
                    !orders_agree as usize,
                    outcome.events.len(),
                    withdrawn,
                    plan.report.links,
                ]) {
                    *met += more;
                }
            }
        }
        met
    };
    let totals = std::thread::scope(|s| {
        let threads = [s.spawn(worker), s.spawn(worker)];
        threads.map(|t| t.join().unwrap()).into_iter().reduce(|a, b| std::array::from_fn(|k| a[k] + b[k]))
    });
    let [jobs, accepted, filled, ordered, events, withdrawn, links] = totals.unwrap();
    println!(
        "{jobs} jobs, {accepted} accepted, {filled} of them with rows where the fills disagree, {ordered} whose plan \
         the order changes; {events} events, {withdrawn} withdrawn, {links} links"
    );
    // Enough of each for the test to mean something.
    assert!(jobs > 200 && accepted > 100 && filled > 40 && ordered > 6);
    assert!(events > 5_000 && withdrawn > 300 && links > 1000);
}

/// A plan made from the other fill's stock is found by the replay, either way.
#[test]
fn a_start_from_the_other_fill_is_found() {
    let job = stored("00005-overlap");
    let [printed, changed] =
        [false, true].map(|fill_contains| Switches { fill_contains, ..Switches::default() });
    for (planned, replayed) in [(printed, changed), (changed, printed)] {
        let outcome = switches::with(planned, || run(&job, true));
        assert!(switches::with(planned, || faults(&job, &outcome)).is_empty());
        let bad = switches::with(replayed, || faults(&job, &outcome));
        assert!(bad.iter().any(|fault| fault.contains("starting cells")), "{bad:?}");
    }
}

/// A plan with passes withdrawn, a helix place given up, a link refused, plunges and links.
fn base() -> (Job, Outcome) {
    static BASE: OnceLock<(Job, Outcome)> = OnceLock::new();
    BASE.get_or_init(|| {
        let job = stored("00101-manystock");
        let outcome = run(&job, true);
        assert!(faults(&job, &outcome).is_empty());
        (job, outcome)
    })
    .clone()
}

/// The damage is found in the rows alone, by a fault that says so.
fn found_in_rows(what: &str, fault: &str, damage: impl Fn(&mut Plan)) {
    let (job, outcome) = base();
    let mut plan = outcome.answer.unwrap();
    damage(&mut plan);
    let bad = replay::rows(&job, &plan);
    assert!(
        bad.iter().any(|f| f.contains(fault)),
        "{what}: {} faults, {:?}",
        bad.len(),
        &bad[..bad.len().min(5)]
    );
}

fn found_in_events(what: &str, fault: &str, damage: impl Fn(&mut Outcome)) {
    let (job, mut outcome) = base();
    damage(&mut outcome);
    let bad = replay::events(&job, outcome.answer.as_ref().unwrap(), &outcome.events);
    assert!(
        bad.iter().any(|f| f.contains(fault)),
        "{what}: {} faults, {:?}",
        bad.len(),
        &bad[..bad.len().min(5)]
    );
}

/// The number of the n-th row of a kind.
fn nth(plan: &Plan, kind: u32, n: usize) -> usize {
    (0..plan.rows.len()).filter(|&k| plan.rows[k][0] == kind).nth(n).unwrap()
}

/// Takes a row and its triples out.
fn remove_row(plan: &mut Plan, row: usize) {
    let [_, first, count] = plan.rows.remove(row);
    plan.triples.drain(first as usize..(first + count) as usize);
    plan.rows[row..].iter_mut().for_each(|r| r[1] -= count);
}

/// The number of the first triple of the n-th cut.
fn cut(plan: &Plan, n: usize) -> usize {
    plan.rows[nth(plan, 4, n)][1] as usize
}

/// The number of the cut triple with the greatest engagement.
fn deepest(plan: &Plan) -> usize {
    let cuts = plan.rows.iter().filter(|r| r[0] == 4);
    let numbers = cuts.flat_map(|r| r[1] as usize..(r[1] + r[2]) as usize);
    numbers.max_by(|a, b| plan.triples[*a][2].total_cmp(&plan.triples[*b][2])).unwrap()
}

#[test]
fn damaged_rows_are_found() {
    found_in_rows("a cut removed", "listed", |p| {
        let row = nth(p, 4, 3);
        remove_row(p, row);
        p.report.passes -= 1;
    });
    found_in_rows("the last cut removed", "a way without a cut", |p| {
        let row = p.rows.len() - 1;
        remove_row(p, row);
        p.report.passes -= 1;
    });
    found_in_rows("the helix removed", "above the guard", |p| {
        let row = nth(p, 1, 0);
        remove_row(p, row);
    });
    found_in_rows("a row that starts elsewhere", "row 2", |p| p.rows[2][1] += 1);
    found_in_rows("an unknown kind", "row 2", |p| p.rows[2][0] = 5);
    found_in_rows("a triple too many", "beyond the last row", |p| p.triples.push([0.0; 3]));
}

#[test]
fn damaged_points_are_found() {
    found_in_rows("an engagement one bit higher", "listed", |p| {
        let k = deepest(p);
        p.triples[k][2] = p.triples[k][2].next_up();
    });
    found_in_rows("a first engagement", "first engagement", |p| {
        let k = cut(p, 2);
        p.triples[k][2] = 0.1;
    });
    found_in_rows("a point shifted by about a cell", "listed", |p| {
        let k = deepest(p);
        p.triples[k][0] += base().0.cell();
    });
    found_in_rows("a point off the pocket", "not allowed", |p| {
        let k = deepest(p);
        p.triples[k][1] += 1000.0;
    });
    found_in_rows("a start moved off the way", "elsewhere", |p| {
        let k = cut(p, 2);
        p.triples[k][0] = p.triples[k][0].next_up();
    });
    found_in_rows("a link into standing stock", "link is not clear", |p| {
        let link = p.rows[nth(p, 3, 0)][1] as usize;
        p.triples[link] = standing_place();
    });
    found_in_rows("a plunge into standing stock", "plunge where", |p| {
        let plunge = p.rows[nth(p, 2, 0)][1] as usize;
        p.triples[plunge] = standing_place();
    });
    found_in_rows("a cut that begins in standing stock", "begins in stock", |p| {
        let k = cut(p, 2);
        p.triples[k] = standing_place();
    });
    found_in_rows("a helix too wide", "rim point", |p| {
        let helix = p.rows[nth(p, 1, 0)][1] as usize;
        p.triples[helix][2] += 100.0;
    });
    found_in_rows("a narrower helix", "above the guard", |p| {
        let helix = p.rows[nth(p, 1, 0)][1] as usize;
        p.triples[helix][2] *= 0.01;
    });
}

/// Where the helix was given up, and stock stands.
fn standing_place() -> [f64; 3] {
    let given_up = base().1.events.into_iter().find_map(|h| match h.event {
        Event::HelixGivenUp { center, .. } => Some([center.x, center.y, 0.0]),
        _ => None,
    });
    given_up.unwrap()
}

#[test]
fn damaged_counts_and_maps_are_found() {
    found_in_rows("starting cells", "starting cells", |p| p.report.starting_cells += 1);
    found_in_rows("standing cells", "standing cells", |p| p.report.standing_cells -= 1);
    found_in_rows("passes", "passes", |p| p.report.passes += 1);
    found_in_rows("links", "links", |p| p.report.links += 1);
    found_in_rows("greatest engagement", "greatest", |p| p.report.planned_max_engagement_deg *= 1.1);
    found_in_rows("a cell of stock lost", "the map handed back", |p| {
        let k = p.map.iter().position(|b| *b).unwrap();
        p.map[k] = false;
    });
    found_in_rows("a cell of stock too many", "the map handed back", |p| {
        let k = p.map.iter().position(|b| !*b).unwrap();
        p.map[k] = true;
    });
}

#[test]
fn damaged_events_are_found() {
    let tried = |o: &Outcome, n: usize| {
        (0..o.events.len()).filter(|&k| matches!(o.events[k].event, Event::Tried { .. })).nth(n).unwrap()
    };
    found_in_events("a wrong removed count", "removed", |o| {
        let k = tried(o, 4);
        let Event::Tried { removed, .. } = &mut o.events[k].event else { unreachable!() };
        *removed += 1;
    });
    found_in_events("a tried point with another engagement", "listed", |o| {
        let k = o.events.iter().position(|h| h.event == Event::Withdrawn).unwrap() - 1;
        let Event::Tried { points, .. } = &mut o.events[k].event else { unreachable!() };
        points[1].1 = points[1].1.next_up();
    });
    // What the customer suffered: a withdrawn pass whose cells stay cleared.
    found_in_events("a pass withdrawn without undo", "the map is not the replay's", |o| {
        let k = o.events.iter().position(|h| h.event == Event::Withdrawn).unwrap();
        assert_ne!(o.events[k].map, o.events[k - 1].map);
        o.events[k].map = o.events[k - 1].map;
    });
    found_in_events("a way judged while the pass has cleared", "judged on the map before", |o| {
        let k = o.events.iter().position(|h| matches!(h.event, Event::Link { .. })).unwrap();
        o.events[k].map = o.events[k - 1].map;
    });
    found_in_events("a clear link refused", "refused, though", |o| {
        let k = o.events.iter().position(|h| matches!(h.event, Event::Link { .. })).unwrap();
        let Event::Link { to } = o.events[k].event else { unreachable!() };
        o.events[k].event = Event::RefusedLink { to };
    });
    found_in_events("a withdrawn pass kept", "is not row", |o| {
        let k = o.events.iter().position(|h| h.event == Event::Withdrawn).unwrap();
        o.events[k].event = Event::Kept;
    });
    found_in_events("a kept pass withdrawn", "the events do not end at the plan", |o| {
        let k = o.events.iter().rposition(|h| h.event == Event::Kept).unwrap();
        o.events[k].event = Event::Withdrawn;
    });
    found_in_events("a link not listed", "is not row", |o| {
        let k = o.events.iter().position(|h| matches!(h.event, Event::Link { .. })).unwrap();
        o.events.remove(k);
    });
    found_in_events("events cut short", "the events do not end at the plan", |o| {
        let k = o.events.iter().rposition(|h| h.event == Event::Kept).unwrap();
        o.events.truncate(k);
    });
}

/// The plan's text, with these switches.
fn planned(job: &Job, how: Switches) -> String {
    switches::with(how, || print(&run(job, false), false))
}

/// Two mistakes that document 01 names, and two in the changed order, change plans of the stored jobs: a port that makes
/// them is found by comparing these.
#[test]
fn stored_jobs_tell_the_known_mistakes() {
    let usual = Switches::default();
    let longer = Switches { longer_first: true, ..usual };
    for (name, right, wrong) in [
        ("00054-ell", usual, Switches { higher_first: true, ..usual }),
        ("00092-exact", usual, Switches { first_wins: true, ..usual }),
        ("45044-mirrored", longer, Switches { fewer_first: true, ..longer }),
        ("45055-mirrored", longer, Switches { later_first: true, ..longer }),
    ] {
        let job = stored(name);
        assert_ne!(planned(&job, right), planned(&job, wrong), "{name}");
    }
}

/// The ways to run the planner that must not matter.
#[test]
fn printed_rim_and_buckets_give_the_same_plans() {
    let printed = Switches { plain_rim: true, buckets: true, ..Switches::default() };
    for name in ["00003-star", "00009-tiny", "00013-outisland", "00017-aligned"] {
        let job = stored(name);
        assert_eq!(planned(&job, printed), planned(&job, Switches::default()), "{name}");
    }
}
