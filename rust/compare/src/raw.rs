//! A job as the library is lent it. Nothing in it need fit together.
use crate::planner::{Params, params};
use oracle::entry;
use oracle::generate::Rng;
use oracle::job::Job;
use oracle::vec2::v2;

#[derive(Clone, Debug)]
pub struct Raw {
    pub params: Params,
    pub whole: bool,
    pub vertices: Vec<f64>,
    pub lengths: Vec<u32>,
    pub regions: Vec<u32>,
    /// Lengths of what is lent for writing: bytes, words, singles, doubles, rows, triples.
    pub lent: [usize; 6],
}

/// Loop lengths of each region: the pocket, then those of the stock.
fn regions(job: &Job) -> impl Iterator<Item = &Vec<usize>> {
    std::iter::once(&job.pocket).chain(job.stock.iter().flatten())
}

/// Lengths of the workspace that the job lends, where it says so; else just enough.
pub fn workspace(job: &Job) -> [usize; 4] {
    let needed = match entry::refused(job) {
        None | Some(15) => {
            let (nx, ny) = entry::sides(&job.regions().0, job.cell());
            entry::lent_needed(nx * ny)
        }
        Some(_) => [200, 800, 50, 800],
    };
    std::array::from_fn(|k| job.lent[k].unwrap_or(needed[k]))
}

impl Raw {
    /// What the job lends, exactly.
    pub fn new(job: &Job) -> Raw {
        let [bytes, words, singles, doubles] = workspace(job);
        Raw {
            params: params(&job.params, f64::NAN),
            whole: job.stock.is_none(),
            vertices: job.verts.iter().flat_map(|v| [v.x, v.y]).collect(),
            lengths: regions(job).flatten().map(|&n| n as u32).collect(),
            regions: regions(job).map(|loops| loops.len() as u32).collect(),
            lent: [bytes, words, singles, doubles, 3 * job.lent_rows, 3 * job.lent_triples],
        }
    }

    /// What makes no difference: where the job does not say how much it lends, now and then some more; a rest of
    /// one or two numbers, which counts for no row and no triple; the number of a setting that is absent.
    pub fn varied(r: &mut Rng, job: &Job) -> Raw {
        let absent = r.pick(&[f64::NAN, f64::INFINITY, -1.0, 0.0, 1.0, f64::MAX]);
        let mut raw = Raw { params: params(&job.params, absent), ..Raw::new(job) };
        for (length, said) in raw.lent.iter_mut().zip(job.lent) {
            *length += if said.is_none() { r.pick(&[0, 0, 1, 100]) } else { 0 };
        }
        for length in &mut raw.lent[4..] {
            *length += r.below(3) as usize;
        }
        raw
    }

    /// The job with these regions and lengths, if they are loops of its lengths and pairs of its coordinates.
    pub fn job(&self, of: &Job) -> Option<Job> {
        let (mut rest, mut parts) = (&self.lengths[..], Vec::new());
        for &count in &self.regions {
            let (loops, behind) = rest.split_at_checked(count as usize)?;
            parts.push(loops.iter().map(|&n| n as usize).collect());
            rest = behind;
        }
        let fits = rest.is_empty() && self.vertices.len().is_multiple_of(2);
        if !fits || parts.is_empty() || self.whole && parts.len() > 1 {
            return None;
        }
        let pocket = parts.remove(0);
        let stock = (!self.whole).then_some(parts);
        let verts = self.vertices.chunks(2).map(|v| v2(v[0], v[1])).collect();
        let lent = std::array::from_fn(|k| Some(self.lent[k]));
        let (lent_rows, lent_triples) = (self.lent[4] / 3, self.lent[5] / 3);
        Some(Job { params: of.params.clone(), pocket, stock, verts, lent, lent_rows, lent_triples })
    }
}
