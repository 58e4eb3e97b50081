//! A job: parameters, pocket, stock, and the sizes of what is lent; its text format.
use crate::geom::Region;
use crate::planner::AdaptiveParams;
use crate::vec2::{Vec2, v2};
use std::fmt::Write;

#[derive(Clone, Debug)]
pub struct Job {
    pub params: AdaptiveParams,
    /// Loop lengths: outer, then islands.
    pub pocket: Vec<usize>,
    /// Loop lengths of each stock region; none: the whole pocket is stock.
    pub stock: Option<Vec<Vec<usize>>>,
    /// The pocket's loops, then each stock region's.
    pub verts: Vec<Vec2>,
    pub lent_triples: usize,
    pub lent_rows: usize,
    /// Bytes, u32, f32, f64; none: exactly enough.
    pub lent: [Option<usize>; 4],
}

const LENT_NAMES: [&str; 4] = ["lent_bytes", "lent_u32", "lent_f32", "lent_f64"];

impl Job {
    pub fn new(params: AdaptiveParams) -> Job {
        Job {
            params,
            pocket: Vec::new(),
            stock: None,
            verts: Vec::new(),
            lent_triples: 4_000_000,
            lent_rows: 100_000,
            lent: [None; 4],
        }
    }

    /// Cell size of the raster.
    pub fn cell(&self) -> f64 {
        self.params.resolution.unwrap_or(self.params.tool_diameter / 80.0)
    }

    /// Pocket and stock, of a job whose question 13 is answered yes.
    pub fn regions(&self) -> (Region, Option<Vec<Region>>) {
        let mut at = 0usize;
        let mut region = |lengths: &[usize]| -> Region {
            let mut loops = Vec::new();
            for &n in lengths {
                loops.push(self.verts[at..at + n].to_vec());
                at += n;
            }
            let outer = loops.remove(0);
            Region { outer, islands: loops }
        };
        let pocket = region(&self.pocket);
        let stock = self.stock.as_ref().map(|s| s.iter().map(|l| region(l)).collect());
        (pocket, stock)
    }
}

/// The bits of a float, as 16 hexadecimal digits.
pub fn hex(v: f64) -> String {
    format!("{:016x}", v.to_bits())
}

/// Bits as `hex` writes them, or a decimal number, `inf`, `nan`.
fn number(s: &str) -> Result<f64, String> {
    if s.len() == 16 && s.bytes().all(|b| matches!(b, b'0'..=b'9' | b'a'..=b'f')) {
        return Ok(f64::from_bits(u64::from_str_radix(s, 16).map_err(|e| e.to_string())?));
    }
    s.parse().map_err(|e| format!("{s}: {e}"))
}

fn count(s: &str) -> Result<usize, String> {
    s.parse().map_err(|e| format!("{s}: {e}"))
}

fn option(s: &str) -> Result<Option<f64>, String> {
    if s == "none" { Ok(None) } else { number(s).map(Some) }
}

fn counts(words: &[&str]) -> Result<Vec<usize>, String> {
    words.iter().map(|s| count(s)).collect()
}

pub fn parse(text: &str) -> Result<Job, String> {
    let mut job = Job::new(AdaptiveParams::new(6.0, 0.0, -6.0, 1000.0));
    let mut lines = text.lines().map(str::trim).filter(|l| !l.is_empty() && !l.starts_with('#'));
    while let Some(line) = lines.next() {
        let words: Vec<&str> = line.split_whitespace().collect();
        let value = words.get(1).copied().unwrap_or("");
        let p = &mut job.params;
        match words[0] {
            "diameter" => p.tool_diameter = number(value)?,
            "engagement" => p.max_engagement_deg = number(value)?,
            "step_down" => p.step_down = number(value)?,
            "top" => p.top = number(value)?,
            "bottom" => p.bottom = number(value)?,
            "leave" => p.stock_to_leave = number(value)?,
            "safe_z" => p.safe_z = number(value)?,
            "feed" => p.feed = number(value)?,
            "plunge_feed" => p.plunge_feed = number(value)?,
            "link_feed" => p.link_feed = number(value)?,
            "ramp" => p.helix_ramp_deg = number(value)?,
            "helix" => p.helix_radius = option(value)?,
            "chip" => p.chip_thinning_max = option(value)?,
            "resolution" => p.resolution = option(value)?,
            "keep_down" => p.keep_tool_down = value == "1",
            "pocket" => job.pocket = counts(&words[1..])?,
            "stock" => job.stock = if value == "none" { None } else { Some(Vec::new()) },
            "region" => job.stock.as_mut().ok_or("region without stock")?.push(counts(&words[1..])?),
            "lent_triples" => job.lent_triples = count(value)?,
            "lent_rows" => job.lent_rows = count(value)?,
            "verts" => {
                for _ in 0..count(value)? {
                    let line = lines.next().ok_or("too few vertex lines")?;
                    let (x, y) = line.split_once(char::is_whitespace).ok_or("a vertex is x and y")?;
                    job.verts.push(v2(number(x)?, number(y.trim())?));
                }
            }
            name => match LENT_NAMES.iter().position(|n| *n == name) {
                Some(k) => job.lent[k] = Some(count(value)?),
                None => return Err(format!("unknown field {name}")),
            },
        }
    }
    Ok(job)
}

pub fn write(job: &Job) -> String {
    let mut s = String::new();
    let p = &job.params;
    for (name, v) in [
        ("diameter", p.tool_diameter),
        ("engagement", p.max_engagement_deg),
        ("step_down", p.step_down),
        ("top", p.top),
        ("bottom", p.bottom),
        ("leave", p.stock_to_leave),
        ("safe_z", p.safe_z),
        ("feed", p.feed),
        ("plunge_feed", p.plunge_feed),
        ("link_feed", p.link_feed),
        ("ramp", p.helix_ramp_deg),
    ] {
        let _ = writeln!(s, "{name} {}", hex(v));
    }
    for (name, v) in [("helix", p.helix_radius), ("chip", p.chip_thinning_max), ("resolution", p.resolution)]
    {
        let _ = writeln!(s, "{name} {}", v.map_or("none".into(), hex));
    }
    let _ = writeln!(s, "keep_down {}", p.keep_tool_down as u8);
    let join = |v: &[usize]| v.iter().map(|x| format!(" {x}")).collect::<String>();
    let _ = writeln!(s, "pocket{}", join(&job.pocket));
    match &job.stock {
        None => s.push_str("stock none\n"),
        Some(regions) => {
            let _ = writeln!(s, "stock {}", regions.len());
            for lengths in regions {
                let _ = writeln!(s, "region{}", join(lengths));
            }
        }
    }
    let _ = writeln!(s, "lent_triples {}\nlent_rows {}", job.lent_triples, job.lent_rows);
    for (name, lent) in LENT_NAMES.iter().zip(job.lent) {
        if let Some(v) = lent {
            let _ = writeln!(s, "{name} {v}");
        }
    }
    let _ = writeln!(s, "verts {}", job.verts.len());
    for v in &job.verts {
        let _ = writeln!(s, "{} {}", hex(v.x), hex(v.y));
    }
    s
}
