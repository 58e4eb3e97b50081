//! The command line.
use crate::mistake::{meant, quoted};
use crate::output::{KINDS, Output};
use std::ffi::OsString;
use std::path::PathBuf;

pub const HELP: &str = "\
pocket-plan JOB [OPTION]...

Plans the pocket of a job file by the proved planner and prints its report. JOB is a file as docs/JOBS.md says, or -
for standard input. Lengths are in mm, angles in degrees.

  --svg FILE    writes the plan as a picture: pocket, islands, stock, passes coloured by contact, links, entries
  --page FILE   writes the plan as one web page that needs no network: the picture, and a replay of the list row by row
  --list FILE   writes the list, a triple a line: row, kind, x, y, value
  --map FILE    writes the stock that is left as an image, a pixel a cell: FILE.png or FILE.pgm
  --progress    tells the time while it plans, where standard error is no terminal too
  --help, -h    prints this

Examples:
  pocket-plan jobs/small.job
  pocket-plan jobs/faceplate.job --svg faceplate.svg --list faceplate.tsv
  pocket-plan jobs/enclosure-side.job --page enclosure-side.html
  pocket-plan --map left.png - < jobs/open-side.job

Exit status: 0 planned, 1 refused by a question of document 01, 2 unusable input or an output that cannot be written.
";

#[derive(Default)]
pub struct Options {
    /// None: standard input.
    pub job: Option<PathBuf>,
    pub outputs: Vec<Output>,
    pub progress: bool,
}

pub enum Asked {
    Help,
    Plan(Options),
}

/// What the words after the command's name ask for, or what is wrong with them.
pub fn options(words: impl IntoIterator<Item = OsString>) -> Result<Asked, String> {
    let mut words = words.into_iter();
    let mut options = Options::default();
    let mut jobs = Vec::new();
    while let Some(word) = words.next() {
        let Some(name) = word.to_str().filter(|w| w.starts_with('-') && *w != "-") else {
            jobs.push(word);
            continue;
        };
        let (name, joined) = match name.split_once('=') {
            Some((name, value)) => (name, Some(OsString::from(value))),
            None => (name, None),
        };
        match (name, &joined) {
            ("--help" | "-h", None) => return Ok(Asked::Help),
            ("--progress", None) => options.progress = true,
            _ => {
                let kind = KINDS.iter().find(|kind| kind.option == name).ok_or_else(|| unknown(name))?;
                let file = joined.or_else(|| words.next()).filter(|file| !file.is_empty());
                let file = file.ok_or_else(|| format!("{name}: expected a file after it, found none"))?;
                options.outputs.push(Output::new(kind, file.into())?);
            }
        }
    }
    let [job] = <[OsString; 1]>::try_from(jobs).map_err(|jobs| match jobs.get(1) {
        Some(second) => format!("expected one job file, found {} too", quoted(&second.to_string_lossy())),
        None => "expected a job file, found none".into(),
    })?;
    options.job = (job != "-").then(|| job.into());
    distinct(&options)?;
    Ok(Asked::Plan(options))
}

/// No output is the job file or another output.
fn distinct(options: &Options) -> Result<(), String> {
    let outputs = options.outputs.iter().map(|output| &output.file);
    let mut files: Vec<&PathBuf> = options.job.iter().chain(outputs).collect();
    files.sort();
    match files.windows(2).find(|pair| pair[0] == pair[1]) {
        Some(pair) => Err(format!("expected different files, found {} twice", pair[0].display())),
        None => Ok(()),
    }
}

fn unknown(name: &str) -> String {
    let names = KINDS.iter().map(|kind| kind.option).chain(["--progress", "--help"]);
    let hint = meant(name, names).map_or(String::new(), |n| format!(" ({n}?)"));
    format!("expected an option, found {}{hint}", quoted(name))
}
