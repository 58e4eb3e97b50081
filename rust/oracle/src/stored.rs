//! The stored jobs of `rust/jobs`.
use crate::entry;
use crate::job::{self, Job};
use std::path::PathBuf;

pub fn jobs_folder() -> PathBuf {
    PathBuf::from(env!("CARGO_MANIFEST_DIR")).join("../jobs")
}

/// The names of all, in order; the larger jobs for timing are apart.
pub fn names() -> Vec<String> {
    let name = |path: PathBuf| {
        let extension = path.extension().is_some_and(|e| e == "job");
        extension.then(|| path.file_stem().unwrap().to_string_lossy().into_owned())
    };
    let entries = std::fs::read_dir(jobs_folder()).unwrap();
    let mut names: Vec<String> = entries.filter_map(|e| name(e.unwrap().path())).collect();
    names.sort();
    names
}

/// A stored job.
pub fn stored(name: &str) -> Job {
    let path = jobs_folder().join(format!("{name}.job"));
    let text = std::fs::read_to_string(&path).unwrap_or_else(|e| panic!("{}: {e}", path.display()));
    job::parse(&text).unwrap_or_else(|e| panic!("{name}: {e}"))
}

/// Planned within about a second: few of the larger jobs would take most of the time.
pub fn quick(job: &Job) -> bool {
    small(job, 30.0, 25_000)
}

/// Refused before planning, or with at least this engagement and at most so many cells.
pub fn small(job: &Job, engagement: f64, most: usize) -> bool {
    let cells = || {
        let (nx, ny) = entry::sides(&job.regions().0, job.cell());
        nx * ny
    };
    entry::refused(job).is_some() || job.params.max_engagement_deg >= engagement && cells() <= most
}
