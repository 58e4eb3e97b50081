//! The answers that document 01 gives, written out by hand.
use oracle::job::{self, Job};
use oracle::run::{Plan, run};
use oracle::stored::stored;

fn answer(job: &Job) -> Result<Plan, u32> {
    run(job, false).answer
}

/// A square of 9 with a tool of 6 and a cell of 0.1: 51 rows, 1,001 triples.
fn square(fields: &str) -> Job {
    let verts = "pocket 4\nverts 4\n0 0\n9 0\n9 9\n0 9\n";
    job::parse(&format!("diameter 6\nengagement 60\nresolution 0.1\n{verts}{fields}\n")).unwrap()
}

#[test]
fn stored_examples_that_are_refused() {
    for (name, number) in [
        ("doc-dia-0-bottom-above-top", 1),
        ("doc-eng-0.999", 2),
        ("doc-eng-180", 2),
        ("doc-res-0.11", 11),
        ("doc-lent-bytes-short", 15),
        ("doc-lent-u32-short", 15),
        ("doc-lent-f32-short", 15),
        ("doc-lent-f64-short", 15),
        ("doc-triples-0", 16),
        ("doc-triples-1000", 16),
        ("doc-empty-stock-triples-0", 16),
        ("doc-rows-0", 17),
        ("doc-rows-50", 17),
    ] {
        assert_eq!(answer(&stored(name)).err(), Some(number), "{name}");
    }
}

#[test]
fn stored_examples_that_are_accepted() {
    for (name, rows, triples) in [
        ("doc-eng-1-default-cell", 1, 1),
        ("doc-res-0.1", 51, 1001),
        ("doc-lent-all-exact", 51, 1001),
        ("doc-triples-1001", 51, 1001),
        ("doc-triples-1002", 51, 1001),
        ("doc-rows-51", 51, 1001),
        ("doc-three-equal", 0, 0),
        ("doc-empty-stock-list", 0, 0),
    ] {
        let plan = answer(&stored(name)).unwrap_or_else(|n| panic!("{name}: {n}"));
        assert_eq!((plan.rows.len(), plan.triples.len()), (rows, triples), "{name}");
    }
}

/// Values on either side of each border, one change to a job that is accepted.
#[test]
fn borders_of_the_questions() {
    let table: [(&str, u32); 86] = [
        ("diameter 0", 1),
        ("diameter -1", 1),
        ("diameter nan", 1),
        ("diameter inf", 1),
        ("engagement 0.999", 2),
        ("engagement 180", 2),
        ("engagement nan", 2),
        ("engagement inf", 2),
        ("step_down 0", 3),
        ("step_down inf", 3),
        ("step_down nan", 3),
        ("bottom 0", 4),
        ("bottom nan", 4),
        ("bottom -inf", 4),
        ("top inf", 4),
        ("top nan", 4),
        ("leave -1e-300", 5),
        ("leave nan", 5),
        ("leave inf", 5),
        ("safe_z 0", 6),
        ("safe_z inf", 6),
        ("safe_z nan", 6),
        ("feed 0", 7),
        ("plunge_feed inf", 7),
        ("link_feed nan", 7),
        ("link_feed -1", 7),
        ("ramp 0", 8),
        ("ramp 45.00000000000001", 8),
        ("ramp nan", 8),
        ("helix 0", 9),
        ("helix inf", 9),
        ("helix nan", 9),
        ("chip 0.999", 10),
        ("chip inf", 10),
        ("chip nan", 10),
        ("resolution 0", 11),
        ("resolution 0.11", 11),
        ("resolution nan", 11),
        ("resolution inf", 11),
        ("diameter 0.0999\nresolution none", 12),
        ("diameter 100.1\nresolution none", 12),
        ("resolution 0.00599", 12),
        ("leave 100.00001", 12),
        ("helix 1000.0001", 12),
        ("step_down 0.000599", 12),
        ("pocket", 13),
        ("pocket 2", 13),
        ("pocket 3", 13),
        ("pocket 5", 13),
        ("pocket 4 0", 13),
        ("stock 1\nregion", 13),
        ("stock 1\nregion 3", 13),
        ("stock 1\nregion 2\nverts 2\n0 0\n1 1", 13),
        ("verts 1\n1 1", 13),
        ("pocket 5\nverts 1\n10000.001 1", 13),
        ("pocket 5\nverts 1\n1 -10000.001", 13),
        ("pocket 5\nverts 1\nnan 1", 13),
        ("pocket 5\nverts 1\n1 inf", 13),
        // 430 / 0.1 is 4,300 columns; 110 · 110 / 0.01 is 1,210,000 cells.
        ("pocket 5\nverts 1\n430 1", 14),
        ("pocket 5\nverts 1\n-430 1", 14),
        ("pocket 5\nverts 1\n1 430", 14),
        ("pocket 5\nverts 1\n110 110", 14),
        // A side of 9 / 0.1 and margins of 2: 95 by 95 cells.
        ("lent_bytes 72199", 15),
        ("lent_u32 296991", 15),
        ("lent_f32 18049", 15),
        ("lent_f64 296991", 15),
        ("lent_triples 0", 16),
        ("lent_triples 1000", 16),
        // The last link needs row 50, the cut after it triple 1,001 and row 51.
        ("lent_triples 1000\nlent_rows 49", 17),
        ("lent_triples 1000\nlent_rows 50", 16),
        ("lent_rows 0", 17),
        ("lent_rows 50", 17),
        ("lent_triples 0\nlent_rows 0", 16),
        // No place for the tool.
        ("leave 100", 18),
        ("diameter 9.1", 18),
        ("leave 1.6", 18),
        // The first no is the answer.
        ("diameter 0\nbottom 1", 1),
        ("engagement 0\nstep_down 0", 2),
        ("step_down 0\nbottom 1\nsafe_z -1", 3),
        ("bottom 1\nleave -1", 4),
        ("leave -1\nsafe_z -1", 5),
        ("safe_z -1\nfeed 0", 6),
        ("feed 0\nramp 0", 7),
        ("ramp 0\nhelix 0", 8),
        ("helix 0\nchip 0", 9),
        ("chip 0\nresolution 1", 10),
    ];
    for (fields, number) in table {
        assert_eq!(answer(&square(fields)).err(), Some(number), "{fields:?}");
    }
}

#[test]
fn borders_that_are_accepted() {
    for fields in [
        "engagement 1",
        "ramp 45",
        "leave 0\nramp 1e-300",
        "chip 1",
        "helix 1000",
        "step_down 0.0006",
        "top 10\nsafe_z 10.000001",
        "keep_down 0",
        "stock 0",
        "lent_bytes 72200\nlent_u32 296992\nlent_f32 18050\nlent_f64 296992",
        "lent_triples 1001\nlent_rows 51",
        "pocket 5\nverts 1\n0 9",
    ] {
        let found = answer(&square(fields));
        assert!(found.is_ok(), "{fields:?}: {:?}", found.err());
    }
}

/// Engagement 1 with the default cell: the guard is half the limit, and nothing can be cut but by the
/// helix, which has no engagement.
#[test]
fn guard_at_the_least_engagement() {
    let job = stored("doc-eng-1-default-cell");
    let plan = answer(&job).unwrap();
    assert_eq!(plan.rows[0][0], 1);
    assert_eq!(plan.report.planned_max_engagement_deg.to_bits(), 0);
    let (region, _) = job.regions();
    let mut hooks = oracle::hooks::Hooks::new(0, 0, false);
    let planner = oracle::planner::Planner::new(&region, None, &job.params, &mut hooks).unwrap();
    assert_eq!(planner.guard.to_bits(), (0.5 * 1f64.to_radians()).to_bits());
}

/// The print's own validation refuses exactly where questions 1 to 11 do.
#[test]
fn the_first_eleven_are_the_published_ones() {
    let mut refused = 0;
    for seed in 0..4000 {
        let (job, _) = oracle::generate::job(seed, Some("malformed")).unwrap();
        let number = oracle::entry::refused(&job);
        assert_eq!(
            job.params.validate().is_err(),
            number.is_some_and(|n| n <= 11),
            "seed {seed}: {number:?}"
        );
        refused += number.is_some_and(|n| n <= 11) as u32;
    }
    assert!(refused > 2000, "{refused}");
}
