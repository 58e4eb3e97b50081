//! The files that the command writes.
use crate::scene::Scene;
use crate::{image, list, page, picture};
use std::fs;
use std::path::PathBuf;

/// A kind of file: its option, what it shows, its bytes.
pub struct Kind {
    pub option: &'static str,
    pub shows: &'static str,
    bytes: fn(&Scene, &Output) -> Vec<u8>,
    /// The endings that its name may have; none: any.
    endings: &'static [&'static str],
}

pub const KINDS: &[Kind] = &[
    Kind {
        option: "--svg",
        shows: "the plan as a picture",
        bytes: |scene, _| picture::svg(scene).into(),
        endings: &[],
    },
    Kind {
        option: "--page",
        shows: "the plan as a web page that replays it",
        bytes: |scene, _| page::page(scene).into(),
        endings: &[],
    },
    Kind { option: "--list", shows: "the list", bytes: |scene, _| list::list(scene).into(), endings: &[] },
    Kind {
        option: "--map",
        shows: "the stock that is left",
        bytes: |scene, output| if output.ends("pgm") { image::pgm(scene) } else { image::png(scene) },
        endings: &["png", "pgm"],
    },
];

pub struct Output {
    pub kind: &'static Kind,
    pub file: PathBuf,
}

impl Output {
    pub fn new(kind: &'static Kind, file: PathBuf) -> Result<Output, String> {
        let output = Output { kind, file };
        if kind.endings.is_empty() || kind.endings.iter().any(|ending| output.ends(ending)) {
            return Ok(output);
        }
        let endings = kind.endings.join(" or .");
        Err(format!(
            "{}: expected a file that ends in .{endings}, found {}",
            kind.option,
            output.file.display()
        ))
    }

    fn ends(&self, ending: &str) -> bool {
        self.file.extension().is_some_and(|e| e.eq_ignore_ascii_case(ending))
    }

    pub fn write(&self, scene: &Scene) -> Result<(), String> {
        let bytes = (self.kind.bytes)(scene, self);
        fs::write(&self.file, bytes).map_err(|e| format!("{}: cannot be written: {e}", self.file.display()))
    }
}
