//! Random damage to jobs.
use super::{NOT_FINITE, TINY, down, up};
use crate::raw::Raw;
use oracle::generate::Rng;
use oracle::job::Job;
use oracle::vec2::v2;

/// A float that is special to a question or to arithmetic, or a neighbour of it.
fn special(r: &mut Rng) -> f64 {
    let most_subnormal = down(f64::MIN_POSITIVE);
    let v = match r.below(4) {
        0 => r.pick(&NOT_FINITE),
        1 => r.pick(&[0.0, TINY, most_subnormal, f64::MIN_POSITIVE, f64::MAX, 1e308, 1e-300]),
        _ => r.pick(&[0.1, 1.0, 6.0, 45.0, 100.0, 180.0, 1_000.0, 10_000.0]),
    };
    let v = r.pick(&[v, v, up(v), down(v)]);
    if r.chance(0.2) { -v } else { v }
}

/// The job with one to three of its floats special.
pub fn damaged(r: &mut Rng, mut job: Job) -> Job {
    for _ in 0..r.below(3) + 1 {
        let (v, p) = (special(r), &mut job.params);
        match r.below(18) {
            0 => p.tool_diameter = v,
            1 => p.max_engagement_deg = v,
            2 => p.step_down = v,
            3 => p.top = v,
            4 => p.bottom = v,
            5 => p.stock_to_leave = v,
            6 => p.safe_z = v,
            7 => p.feed = v,
            8 => p.plunge_feed = v,
            9 => p.link_feed = v,
            10 => p.helix_ramp_deg = v,
            11 => p.helix_radius = Some(v),
            12 => p.chip_thinning_max = Some(v),
            13 => {
                p.resolution = Some(r.pick(&[v, up(p.tool_diameter / 60.0), p.tool_diameter / 60.0 + 1e-12]))
            }
            _ => {
                let k = r.below(job.verts.len() as u64) as usize;
                let at = job.verts[k];
                job.verts[k] = if r.chance(0.5) { v2(v, at.y) } else { v2(at.x, v) };
            }
        }
    }
    job
}

/// Another number, one that loses carries among them.
fn number(r: &mut Rng, n: u32) -> u32 {
    let near = [n.wrapping_add(1), n.wrapping_sub(1), n.wrapping_add(1 << 31)];
    let far = [0, 1, 2, 3, 64, 65, 66, 4_096, 4_097, 1 << 31, u32::MAX - 1, u32::MAX];
    if r.chance(0.5) { r.pick(&near) } else { r.pick(&far) }
}

fn tear<T: Copy>(r: &mut Rng, list: &mut Vec<T>, change: impl Fn(&mut Rng, T) -> T) {
    let k = r.below(list.len() as u64 + 1) as usize;
    match (r.below(5), list.get(k).copied()) {
        (0, _) => list.truncate(k),
        (1, Some(_)) => drop(list.remove(k)),
        (2, Some(v)) => list.insert(k, v),
        (_, Some(v)) => list[k] = change(r, v),
        (_, None) => list.clear(),
    }
}

/// The job with one or two of its lists torn: loops, regions, coordinates.
pub fn torn(r: &mut Rng, mut raw: Raw) -> Raw {
    for _ in 0..r.below(2) + 1 {
        match r.below(8) {
            0 => raw.whole = !raw.whole,
            1..=3 => tear(r, &mut raw.lengths, number),
            4..=5 => tear(r, &mut raw.regions, number),
            _ => tear(r, &mut raw.vertices, |r, _| special(r)),
        }
    }
    raw
}
