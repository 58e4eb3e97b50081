//! Jobs that a question of document 01 turns back, each by a value on or near its border.
use super::rng::Rng;
use crate::job::Job;
use crate::vec2::v2;

pub fn malform(j: &mut Job, r: &mut Rng) {
    let bad = [f64::NAN, f64::INFINITY, f64::NEG_INFINITY, 0.0, -1.0, -0.0];
    let notfin = [f64::NAN, f64::INFINITY, f64::NEG_INFINITY];
    let times = if r.chance(0.2) { 2 } else { 1 };
    for _ in 0..times {
        match r.below(14) + 1 {
            1 => j.params.tool_diameter = r.pick(&bad),
            2 => {
                j.params.max_engagement_deg =
                    r.pick(&[0.999, 180.0, f64::NAN, f64::INFINITY, -5.0, 0.9999999999999999])
            }
            3 => j.params.step_down = r.pick(&bad),
            4 => match r.below(3) {
                0 => j.params.top = r.pick(&notfin),
                1 => j.params.bottom = r.pick(&notfin),
                _ => j.params.bottom = j.params.top + r.pick(&[0.0, 1.0]),
            },
            5 => j.params.stock_to_leave = r.pick(&[-1e-300, f64::NAN, f64::INFINITY, -1.0]),
            6 => j.params.safe_z = r.pick(&[j.params.top, j.params.top - 1.0, f64::NAN, f64::INFINITY]),
            7 => match r.below(3) {
                0 => j.params.feed = r.pick(&bad),
                1 => j.params.plunge_feed = r.pick(&bad),
                _ => j.params.link_feed = r.pick(&bad),
            },
            8 => j.params.helix_ramp_deg = r.pick(&[45.00000000000001, 0.0, f64::NAN, -3.0]),
            9 => j.params.helix_radius = Some(r.pick(&bad)),
            10 => j.params.chip_thinning_max = Some(r.pick(&[0.99, 0.0, f64::NAN, f64::INFINITY, -1.0])),
            11 => {
                j.params.resolution =
                    Some(r.pick(&[0.0, -0.1, f64::NAN, f64::INFINITY, j.params.tool_diameter / 59.0]))
            }
            12 => match r.below(6) {
                0 => j.params.tool_diameter = r.pick(&[0.0999, 100.1, 1e9, 1e-300]),
                1 => j.params.resolution = Some(j.params.tool_diameter / 1001.0),
                2 => j.params.stock_to_leave = 100.00001,
                3 => j.params.helix_radius = Some(1000.0001),
                4 => j.params.step_down = (j.params.top - j.params.bottom) / 10_001.0,
                _ => {
                    j.params.top = 1e308;
                    j.params.bottom = -1e308;
                    j.params.safe_z = 1.1e308;
                }
            },
            13 => match r.below(8) {
                0 => j.pocket[0] += 1,
                1 => j.pocket[0] -= 1,
                2 => {
                    j.verts[0].x = r.pick(&[10_000.000001, -10_001.0, f64::NAN, f64::INFINITY]);
                }
                3 => j.pocket = vec![2, 2],
                4 => j.pocket = vec![],
                5 => j.stock = Some(vec![vec![]]),
                6 => {
                    j.pocket = std::iter::once(4).chain((0..65).map(|_| 3)).collect();
                    let v = j.verts[0];
                    j.verts.resize(4 + 195, v);
                }
                _ => {
                    j.stock = Some((0..17).map(|_| vec![3]).collect());
                    let v = j.verts[0];
                    j.verts.truncate(4);
                    j.pocket = vec![4];
                    j.verts.resize(4 + 51, v);
                }
            },
            _ => match r.below(3) {
                0 => {
                    let v = j.verts[0];
                    j.verts[0] = v2(v.x - 60.0 * j.params.tool_diameter, v.y - 60.0 * j.params.tool_diameter)
                }
                1 => j.params.resolution = Some(j.params.tool_diameter / 999.0),
                _ => {
                    let n = 4097 - j.verts.len();
                    let v = j.verts[0];
                    j.verts.extend(std::iter::repeat_n(v, n));
                    j.pocket[0] += n;
                }
            },
        }
    }
}
