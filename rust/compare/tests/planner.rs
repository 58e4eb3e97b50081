//! Whole jobs beside the oracle: answer, report, rows, triples, final map, zeros everywhere else, and what lies around
//! the lent slices, which are full of noise.
use compare::planned::{Planned, compared, trimmed};
use compare::raw::Raw;
use oracle::expected::expected;
use oracle::generate::{self, Rng};
use oracle::job::Job;
use oracle::run::Plan;
use oracle::stored::{names, small, stored};

/// How many jobs there were.
#[derive(Default)]
struct Met {
    /// With each answer, by number, 0 for accepted: where the two fills agree, and where they disagree.
    answers: [[usize; 19]; 2],
    /// Whose answer the order of equally near pieces changes.
    ordered: usize,
}

impl Met {
    fn add(&mut self, r: &mut Rng, job: &Job, name: &str) {
        let same = compared(r, job).unwrap_or_else(|fault| panic!("{name}: {fault}"));
        self.answers[!same.fills_agree as usize][same.number as usize] += 1;
        self.ordered += !same.orders_agree as usize;
    }

    /// So many jobs at least, every answer among them; so many accepted where the fills agree and where they disagree; and so
    /// many whose answer the order changes.
    fn all(&self, jobs: usize, accepted: [usize; 2], ordered: usize) {
        let Met { answers: [agree, disagree], ordered: changed } = self;
        let [first, second] = [agree, disagree].map(|met| met.iter().sum::<usize>());
        println!("the fills agree on {first} jobs: {agree:?}\nthey disagree on {second}: {disagree:?}");
        println!("the order changes the answer of {changed}");
        assert!(first + second >= jobs && agree.iter().zip(disagree).all(|(a, b)| a + b > 0));
        assert!(agree[0] >= accepted[0] && disagree[0] >= accepted[1] && *changed >= ordered);
    }
}

#[test]
fn stored_jobs() {
    let (mut r, mut met) = (Rng(51), Met::default());
    for name in names() {
        met.add(&mut r, &stored(&name), &name);
    }
    met.all(200, [100, 20], 4);
}

/// Jobs of all kinds on small rasters; on the borders of the questions more, and where the two fills or the two orders part.
#[test]
fn generated_jobs() {
    let (mut r, mut met) = (Rng(52), Met::default());
    for (kind, seeds) in [
        (None, 2_000..4_500),
        (Some("malformed"), 5_000..5_350),
        (Some("lent"), 6_000..6_600),
        (Some("exact"), 7_000..7_200),
        (Some("outisland"), 8_000..8_080),
        (Some("nested"), 8_000..8_080),
        (Some("bosses"), 8_000..8_080),
        (Some("stockisles"), 8_000..8_080),
        (Some("crossed"), 8_000..8_080),
        (Some("crossisles"), 8_000..8_080),
        (Some("mirrored"), 8_000..8_300),
    ] {
        for seed in seeds {
            let (job, kind) = generate::job(seed, kind).unwrap();
            if small(&job, 35.0, 14_000) {
                met.add(&mut r, &job, &format!("seed {seed} {kind}"));
            }
        }
    }
    met.all(1_000, [200, 100], 25);
}

/// A plan that is another one in a single place is told apart.
#[test]
fn differences_are_seen() {
    let job = trimmed(&stored("doc-res-0.1"));
    let got = Planned::new(&mut Rng(53), &Raw::new(&job));
    let plan = expected(&job, false).outcome.answer.unwrap();
    assert_eq!(got.fault(&Ok(plan.clone())), None);
    let changes: [fn(&mut Plan); 8] = [
        |p| p.report.links += 1,
        |p| p.report.removed_area = p.report.removed_area.next_up(),
        |p| p.report.left_reachable = true,
        |p| p.map[4_000] ^= true,
        |p| p.rows[50][2] += 1,
        |p| p.triples[1_000][2] = p.triples[1_000][2].next_down(),
        |p| p.triples.truncate(1_000),
        |p| p.rows.push([4, 0, 0]),
    ];
    for (k, change) in changes.into_iter().enumerate() {
        let mut other = plan.clone();
        change(&mut other);
        assert!(got.fault(&Ok(other)).is_some(), "change {k}");
    }
    for number in 1..=18 {
        assert!(got.fault(&Err(number)).is_some(), "{number}");
    }
}
