//! The web page: what it holds, and how it works in a real browser where one is installed.
mod chromium;

use chromium::Browser;
use pocket::{Chunk, Job, Params, Shape};
use pocket_plan::page::page;
use pocket_plan::scene::Scene;
use std::f64::consts::TAU;
use std::path::PathBuf;

/// A small pocket with an island, planned.
fn scene() -> Scene {
    let outer = [[0.0, 0.0], [20.0, 0.0], [20.0, 14.0], [0.0, 14.0]];
    let island = [[13.0, 6.0], [15.0, 6.0], [15.0, 8.0], [13.0, 8.0]];
    let mut params = Params::new(4.0, 0.0, -3.0, 800.0);
    params.max_engagement_deg = 70.0;
    params.resolution = Some(4.0 / 60.0);
    let job = Job::new(params, Shape::new(&outer).island(&island));
    let plan = job.plan().unwrap();
    Scene::new("a <small> & plain pocket", job.raw(), plan).unwrap()
}

#[test]
fn stands_alone() {
    let page = page(&scene());
    assert!(!page.contains("{{"), "a part was not put in");
    assert!(page.contains("a &lt;small&gt; &amp; plain pocket"));
    // The only address is the name of SVG's vocabulary, which nothing fetches.
    let mut addresses = page.match_indices("://").map(|(k, _)| &page[k..k + 21]);
    assert!(addresses.all(|a| a == "://www.w3.org/2000/sv"));
    assert!(page.contains("default-src 'none'"));
}

/// A row's kind in the words of the page.
fn word(chunk: &Chunk) -> &'static str {
    match chunk {
        Chunk::Helix { .. } => "Helix entry",
        Chunk::Plunge(_) => "Plunge",
        Chunk::Link(_) => "Link",
        Chunk::Cut(_) => "Cut",
    }
}

/// The greatest contact of a row, as the page writes it: its angle, and its hits by that angle.
fn contact(chunk: &Chunk, samples: usize) -> [String; 2] {
    let Chunk::Cut(cuts) = chunk else { return ["\u{2013}", "\u{2013}"].map(String::from) };
    let greatest = cuts.iter().map(|cut| cut.angle).fold(0.0, f64::max);
    let hits = (greatest / TAU * samples as f64).round();
    [format!("{:.1}\u{b0}", greatest.to_degrees()), format!("{hits} of {samples}")]
}

fn points(chunk: &Chunk) -> usize {
    if let Chunk::Cut(cuts) = chunk { cuts.len() } else { 1 }
}

struct Opened {
    browser: Browser,
    rows: usize,
}

impl Opened {
    fn text(&mut self, id: &str) -> String {
        self.browser.ask(&format!("document.getElementById('{id}').textContent"))
    }

    fn at(&mut self, row: usize) {
        assert_eq!(self.text("place"), format!("{row} / {}", self.rows));
        assert_eq!(self.browser.ask("document.getElementById('row').value"), row.to_string());
    }

    /// Stock cells that the drawn map shows.
    fn shown(&mut self) -> usize {
        let same = "pixels.data[4 * k] === COLOURS.stock[0] && pixels.data[4 * k + 2] === COLOURS.stock[2]";
        let count = format!("[...Array(plan.nx * plan.ny).keys()].filter(k => {same}).length");
        self.browser.ask(&count).parse().unwrap()
    }
}

fn opened(scene: &Scene) -> Option<Opened> {
    let Some(program) = chromium::installed() else {
        println!("no browser is installed: the page was not opened in one");
        return None;
    };
    let folder = std::env::temp_dir().join(format!("pocket-page-{}", std::process::id()));
    std::fs::create_dir_all(&folder).unwrap();
    let file: PathBuf = folder.join("page.html");
    std::fs::write(&file, page(scene)).unwrap();
    let mut browser = Browser::start(&program, &folder);
    browser.open(&file);
    Some(Opened { browser, rows: scene.plan.rows.len() })
}

#[test]
fn is_driven() {
    let scene = scene();
    let Some(mut page) = opened(&scene) else { return };
    let chunks: Vec<Chunk> = scene.plan.chunks().collect();
    let report = &scene.plan.report;
    // A rim of 2 mm, cells of 1/15 mm.
    let samples = 377;

    page.at(0);
    assert_eq!(page.text("standing"), report.starting_cells.to_string());
    assert_eq!(page.shown(), report.starting_cells);

    // Arrow by arrow through the first rows, with what each is.
    for (k, chunk) in chunks.iter().take(12).enumerate() {
        page.browser.press("ArrowRight", 39);
        page.at(k + 1);
        assert_eq!(page.text("kind"), word(chunk));
        assert_eq!(page.text("points"), points(chunk).to_string());
        assert_eq!([page.text("contact"), page.text("hits")], contact(chunk, samples));
    }

    // The end is the map that was handed back.
    page.browser.click("last");
    page.at(chunks.len());
    assert_eq!(page.text("standing"), report.standing_cells.to_string());
    assert_eq!(page.shown(), report.standing_cells);

    // One row back gives its cells back.
    let removed: usize = page.text("removed").parse().unwrap();
    page.browser.click("back");
    page.at(chunks.len() - 1);
    assert_eq!(page.shown(), report.standing_cells + removed);

    // The slider by its keys, and all the way to the start.
    page.browser.ask("document.getElementById('row').focus()");
    page.browser.press("ArrowLeft", 37);
    page.at(chunks.len() - 2);
    page.browser.press("Home", 36);
    page.at(0);
    assert_eq!(page.shown(), report.starting_cells);

    // It plays by itself, and stops.
    page.browser.click("play");
    while page.text("place").starts_with("0 ") {
        std::thread::sleep(std::time::Duration::from_millis(20));
    }
    assert_eq!(page.text("play"), "Stop");
    page.browser.click("play");
    assert_eq!(page.text("play"), "Play");
}

/// What the page removes row by row is what the plan removed.
#[test]
fn rows_add_up() {
    let scene = scene();
    let page = page(&scene);
    let removed = page.match_indices("\"removed\":").map(|(k, name)| {
        let digits = page[k + name.len()..].split(',').next().unwrap();
        digits.parse::<usize>().unwrap()
    });
    let report = &scene.plan.report;
    assert_eq!(removed.sum::<usize>(), report.starting_cells - report.standing_cells);
}
