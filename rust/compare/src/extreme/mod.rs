//! Jobs at and just beside each limit of document 01's questions 1 to 17, each with the answer that the document gives,
//! written out by hand; and random damage.
mod damage;
mod loops;
mod parameters;
mod sizes;

use crate::planned::compared_raw;
use crate::raw::Raw;
pub use damage::{damaged, torn};
use oracle::generate::Rng;
use oracle::job::Job;
use oracle::planner::AdaptiveParams;
use oracle::vec2::{Vec2, v2};

/// The least float above 0.
const TINY: f64 = f64::from_bits(1);

/// What is no finite number: quiet and signalling NaN of either sign, infinities.
const NOT_FINITE: [f64; 6] = [
    f64::NAN,
    -f64::NAN,
    f64::from_bits(0x7ff0_0000_0000_0001),
    f64::from_bits(0xfff0_0000_0000_0001),
    f64::INFINITY,
    f64::NEG_INFINITY,
];

/// A job, and its answer by document 01; 0 is accepted.
pub struct Case {
    pub name: String,
    pub raw: Raw,
    pub want: u32,
    /// What `raw` was made from.
    of: Job,
}

impl Case {
    fn job(name: String, job: Job, want: u32) -> Case {
        Case { name, raw: Raw::new(&job), want, of: job }
    }

    /// The answer is the document's and, with all that is lent, the oracle's.
    pub fn check(&self, r: &mut Rng) -> Result<(), String> {
        match compared_raw(r, &self.raw, &self.of) {
            Ok(same) if same.number == self.want => Ok(()),
            Ok(same) => Err(format!("{}: answer {}, not {}", self.name, same.number, self.want)),
            Err(fault) => Err(format!("{}: {fault}", self.name)),
        }
    }
}

/// All of them.
pub fn cases() -> Vec<Case> {
    [parameters::cases(), loops::cases(), sizes::cases()].into_iter().flatten().collect()
}

fn up(x: f64) -> f64 {
    x.next_up()
}

fn down(x: f64) -> f64 {
    x.next_down()
}

/// A job of a loop. Tool 6, engagement 40, depth 6.
fn pocket(verts: Vec<Vec2>) -> Job {
    let mut job = Job::new(AdaptiveParams::new(6.0, 0.0, -6.0, 1000.0));
    job.pocket = vec![verts.len()];
    job.verts = verts;
    (job.lent_rows, job.lent_triples) = (100, 2000);
    job
}

/// Three equal vertices: a raster of 5 by 5, accepted without a chunk. What a parameter is matters only to the questions.
pub fn point() -> Job {
    pocket(vec![v2(1.0, 2.0); 3])
}

/// A square of 9, cell 0.1: a raster of 95 by 95, 51 rows, 1,001 triples.
fn square() -> Job {
    let mut job = pocket(vec![v2(0.0, 0.0), v2(9.0, 0.0), v2(9.0, 9.0), v2(0.0, 9.0)]);
    job.params.max_engagement_deg = 60.0;
    job.params.resolution = Some(0.1);
    job
}
