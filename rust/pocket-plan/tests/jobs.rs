//! The stored jobs mean to the command what they mean to the oracle; the sample jobs are as they say.
use oracle::job;
use pocket::RawJob;
use pocket_plan::file::parse;
use std::fs;
use std::path::{Path, PathBuf};

fn files(folder: &str) -> Vec<PathBuf> {
    let folder = Path::new(env!("CARGO_MANIFEST_DIR")).join(folder);
    let entries = fs::read_dir(&folder).unwrap().map(|entry| entry.unwrap().path());
    let mut files: Vec<PathBuf> =
        entries.filter(|path| path.extension().is_some_and(|e| e == "job")).collect();
    files.sort();
    files
}

fn bits(v: &[f64]) -> Vec<u64> {
    v.iter().map(|v| v.to_bits()).collect()
}

fn numbers(p: &pocket::Params) -> [u64; 11] {
    [
        p.tool_diameter,
        p.max_engagement_deg,
        p.step_down,
        p.top,
        p.bottom,
        p.stock_to_leave,
        p.safe_z,
        p.feed,
        p.plunge_feed,
        p.link_feed,
        p.helix_ramp_deg,
    ]
    .map(f64::to_bits)
}

/// The command's job has the same parameters, loops and limits as the oracle's, bit for bit.
fn same(raw: &RawJob, job: &job::Job) {
    let (p, q) = (&raw.params, &job.params);
    let theirs = pocket::Params {
        tool_diameter: q.tool_diameter,
        max_engagement_deg: q.max_engagement_deg,
        step_down: q.step_down,
        top: q.top,
        bottom: q.bottom,
        stock_to_leave: q.stock_to_leave,
        safe_z: q.safe_z,
        feed: q.feed,
        plunge_feed: q.plunge_feed,
        link_feed: q.link_feed,
        helix_ramp_deg: q.helix_ramp_deg,
        ..pocket::Params::default()
    };
    assert_eq!(numbers(p), numbers(&theirs));
    let settings = |a: [Option<f64>; 3]| a.map(|v| v.map(f64::to_bits));
    assert_eq!(
        settings([p.helix_radius, p.chip_thinning_max, p.resolution]),
        settings([q.helix_radius, q.chip_thinning_max, q.resolution])
    );
    assert_eq!((p.keep_tool_down, raw.whole), (q.keep_tool_down, job.stock.is_none()));
    let regions: Vec<&Vec<usize>> = std::iter::once(&job.pocket).chain(job.stock.iter().flatten()).collect();
    assert_eq!(raw.regions, regions.iter().map(|r| r.len() as u32).collect::<Vec<_>>());
    assert_eq!(raw.lengths, regions.iter().copied().flatten().map(|n| *n as u32).collect::<Vec<_>>());
    let vertices: Vec<f64> = job.verts.iter().flat_map(|v| [v.x, v.y]).collect();
    assert_eq!(bits(&raw.vertices), bits(&vertices));
    let l = &raw.lent;
    assert_eq!([l.bytes, l.words, l.singles, l.doubles], job.lent);
    assert_eq!(
        (l.rows.unwrap_or(100_000), l.triples.unwrap_or(4_000_000)),
        (job.lent_rows, job.lent_triples)
    );
}

#[test]
fn stored_jobs_mean_what_the_oracle_reads() {
    let files = [files("../jobs"), files("../jobs/large")].concat();
    assert!(files.len() > 200, "{}", files.len());
    for file in files {
        let text = fs::read_to_string(&file).unwrap();
        let raw = parse(&text).unwrap_or_else(|m| panic!("{}", m.under(&file.to_string_lossy())));
        same(&raw, &job::parse(&text).unwrap());
    }
}

#[test]
fn the_raster_is_the_oracles() {
    for file in files("../jobs") {
        let text = fs::read_to_string(&file).unwrap();
        let (raw, job) = (parse(&text).unwrap(), job::parse(&text).unwrap());
        if oracle::entry::refused(&job).is_none_or(|number| number == 15) {
            let (nx, ny) = oracle::entry::sides(&job.regions().0, job.cell());
            let grid = raw.grid().unwrap();
            assert_eq!((grid.nx, grid.ny, raw.cells()), (nx, ny, nx * ny));
            assert_eq!(pocket::workspace_needed(raw.cells()), oracle::entry::lent_needed(nx * ny));
        }
    }
}

#[test]
fn sample_jobs_are_read() {
    let names: Vec<String> =
        files("../../jobs").iter().map(|f| f.file_stem().unwrap().to_string_lossy().into_owned()).collect();
    assert_eq!(names, ["boss", "enclosure-side", "faceplate", "open-side", "refused", "small"]);
    for file in files("../../jobs") {
        let raw = parse(&fs::read_to_string(&file).unwrap()).unwrap();
        assert!(raw.shapes().is_some());
    }
}

/// Cells of 0.1 mm: the pocket has 560 by 400, the bars 280 by 80 and 80 by 200, with 80 by 80 in common.
#[test]
fn the_overlap_of_two_islands_is_no_stock() {
    let file = Path::new(env!("CARGO_MANIFEST_DIR")).join("../../jobs/boss.job");
    let plan = parse(&fs::read_to_string(file).unwrap()).unwrap().plan().unwrap();
    assert_eq!(plan.report.starting_cells, 560 * 400 - 280 * 80 - 80 * 200 + 80 * 80);
}

/// The indented texts of a document.
fn texts(document: &str) -> Vec<String> {
    let mut texts = vec![String::new()];
    for line in document.lines() {
        match (line.strip_prefix("    "), texts.last_mut()) {
            (Some(line), Some(last)) => *last += &format!("{line}\n"),
            _ => texts.push(String::new()),
        }
    }
    texts
}

#[test]
fn the_examples_of_the_document_are_read() {
    let document = Path::new(env!("CARGO_MANIFEST_DIR")).join("../../docs/JOBS.md");
    let texts = texts(&fs::read_to_string(document).unwrap());
    let jobs: Vec<RawJob> =
        texts.iter().filter(|text| text.contains("\nverts")).map(|text| parse(text).unwrap()).collect();
    assert_eq!(jobs.iter().map(|job| job.shapes().unwrap().len()).collect::<Vec<_>>(), [1, 2]);
    let mistaken = texts.iter().find(|text| text.contains("expected")).unwrap();
    let mistake = parse("diameter 6\n\nengagement 6O\n").unwrap_err();
    assert_eq!(*mistaken, format!("{}\n", mistake.under("bad.job")));
}
