use pocket::RawJob;
use pocket_plan::options::{Asked, HELP, Options, options};
use pocket_plan::scene::Scene;
use pocket_plan::{file, progress, why, words};
use std::fs::File;
use std::io::{self, Read, Write};
use std::path::Path;
use std::process::ExitCode;

/// No job file is longer: 4,096 vertices take a hundredth of it.
const LONGEST: u64 = 16 << 20;

/// The exit status of each end.
const PLANNED: u8 = 0;
const REFUSED: u8 = 1;
const UNUSABLE: u8 = 2;

fn main() -> ExitCode {
    let status = match options(std::env::args_os().skip(1)) {
        Ok(Asked::Help) => {
            print(HELP);
            PLANNED
        }
        Ok(Asked::Plan(options)) => run(&options).unwrap_or_else(|message| {
            complain(&message);
            UNUSABLE
        }),
        Err(message) => {
            complain(&format!("{message}\npocket-plan --help tells more"));
            UNUSABLE
        }
    };
    ExitCode::from(status)
}

/// A reader who has seen enough closes the pipe: that is no fault.
fn print(text: &str) {
    let _ = io::stdout().write_all(text.as_bytes());
}

fn complain(text: &str) {
    let _ = writeln!(io::stderr(), "{text}");
}

fn run(options: &Options) -> Result<u8, String> {
    let name = options.job.as_deref().map_or("standard input".into(), |path| path.to_string_lossy());
    let bytes = read(options.job.as_deref()).map_err(|e| format!("{name}: cannot be read: {e}"))?;
    let job = file::parse_bytes(&bytes).map_err(|mistake| mistake.under(&name).to_string())?;
    let (answer, time) = progress::plan(&job, options.progress);
    let time = format!("in {} s", words::decimal(time.as_secs_f64(), 2));
    let plan = match answer {
        Ok(plan) => plan,
        Err(refusal) => {
            print(&format!("{name}: refused {time}\n  {}\n", why::why(&job, refusal)));
            return Ok(REFUSED);
        }
    };
    let scene = scene(&name, job, plan);
    print(&format!("{name}: planned {time}\n{}", words::report(&scene)));
    for output in &options.outputs {
        output.write(&scene)?;
        print(&format!("wrote {}: {}\n", output.file.display(), output.kind.shows));
    }
    Ok(PLANNED)
}

fn scene(name: &str, job: RawJob, plan: pocket::Plan) -> Scene {
    let short = Path::new(name).file_name().map_or(name.into(), |n| n.to_string_lossy().into_owned());
    Scene::new(&short, job, plan).expect("a job that is planned has its regions")
}

/// The bytes of a file, or of standard input.
fn read(path: Option<&Path>) -> io::Result<Vec<u8>> {
    let mut bytes = Vec::new();
    let most = LONGEST + 1;
    match path {
        Some(path) => File::open(path)?.take(most).read_to_end(&mut bytes)?,
        None => io::stdin().lock().take(most).read_to_end(&mut bytes)?,
    };
    if bytes.len() as u64 > LONGEST {
        return Err(io::Error::other("longer than 16 MB, no job file is"));
    }
    Ok(bytes)
}
