//! The shapes of pockets and stock, each kind meant to meet something particular.
use super::rng::Rng;
use crate::job::Job;
use crate::vec2::{Vec2, v2};
use std::f64::consts::TAU;

pub type Loop = Vec<Vec2>;

/// A pocket's loops and its stock regions' loops.
pub struct Shape {
    pub loops: Vec<Loop>,
    pub stock: Option<Vec<Vec<Loop>>>,
}

impl Shape {
    /// Changes the pocket's loops, then the stock's.
    pub fn each_loop(&mut self, change: impl FnMut(&mut Loop)) {
        let stock = self.stock.iter_mut().flatten().flatten();
        self.loops.iter_mut().chain(stock).for_each(change);
    }
}

pub fn rect(x0: f64, y0: f64, x1: f64, y1: f64) -> Loop {
    vec![v2(x0, y0), v2(x1, y0), v2(x1, y1), v2(x0, y1)]
}

/// Points on a circle. By the system's sine and cosine: elsewhere the last bits may differ, so the
/// stored jobs hold bits.
pub fn ring(c: Vec2, r: f64, n: usize, phase: f64) -> Loop {
    (0..n)
        .map(|k| {
            let a = phase + TAU * k as f64 / n as f64;
            v2(c.x + r * a.cos(), c.y + r * a.sin())
        })
        .collect()
}

pub fn turn(l: &mut [Vec2], a: f64) {
    let (s, c) = a.sin_cos();
    for v in l {
        *v = v2(v.x * c - v.y * s, v.x * s + v.y * c);
    }
}

/// A loop that crosses itself: a star drawn in one line, or a bow tie.
fn crossing(c: Vec2, radius: f64, r: &mut Rng) -> Loop {
    let (n, order): (usize, &[usize]) = match r.below(3) {
        0 => (5, &[0, 2, 4, 1, 3]),
        1 => (7, &[0, 3, 6, 2, 5, 1, 4]),
        _ => (4, &[0, 1, 3, 2]),
    };
    let points = ring(c, radius, n, r.range(0.0, TAU));
    order.iter().map(|&k| points[k]).collect()
}

/// A rectangle whose upper edge makes a turn inwards and goes on a little higher; what the turn encloses is outside.
fn curled(a: f64, b: f64, d: f64, r: &mut Rng) -> Loop {
    let (x0, x1) = (a * r.range(-0.8, 0.2), a * r.range(0.4, 0.8));
    let (low, high) = (b - d * r.range(0.05, 0.4), b + d * r.range(0.01, 0.1));
    vec![v2(-a, -b), v2(a, -b), v2(a, b), v2(x0, b), v2(x0, low), v2(x1, low), v2(x1, high), v2(-a, high)]
}

/// Two or three islands about a place, in one another or overlapping.
fn bosses(c: Vec2, size: f64, r: &mut Rng) -> Vec<Loop> {
    let mut loops = vec![ring(c, size, r.below(6) as usize + 3, r.range(0.0, TAU))];
    for _ in 0..r.below(2) + 1 {
        let (far, share) = if r.chance(0.5) { (0.1, r.range(0.2, 0.6)) } else { (0.9, r.range(0.4, 1.0)) };
        let off = v2(r.range(-far, far), r.range(-far, far)) * size;
        loops.push(ring(c + off, size * share, r.below(6) as usize + 3, r.range(0.0, TAU)));
    }
    loops
}

/// A place towards a corner of a pocket with these half sides, up to the corner itself: the tool gets past an island there.
fn cornered(a: f64, b: f64, r: &mut Rng) -> Vec2 {
    v2(a * r.range(0.5, 1.0) * r.pick(&[-1.0, 1.0]), b * r.range(0.5, 1.0) * r.pick(&[-1.0, 1.0]))
}

/// Two that are drawn, now and then the same one twice.
fn two<T: Clone>(r: &mut Rng, draw: impl Fn(&mut Rng) -> T) -> [T; 2] {
    let first = draw(r);
    let second = if r.chance(0.1) { first.clone() } else { draw(r) };
    [first, second]
}

/// Two bars of stock, each along the wall from where its curve begins: turned by half about the origin the one is the other,
/// but for its length. In cells, for a tool of this radius.
fn bars(rad: f64, r: &mut Rng) -> Shape {
    let face = (rad * r.range(1.05, 1.25)).ceil();
    let (a, b) = ((rad * r.range(1.75, 2.2)).round(), (face + rad * r.range(0.35, 0.7)).round());
    let [first, second] = two(r, |r| {
        let end = (a - rad * r.range(1.7, 3.2)).round().max(-a);
        let slant = (rad * r.range(-0.4, 0.4)).round();
        vec![v2(a, face), v2(a, b), v2(end + slant, b), v2(end, face)]
    });
    let second = second.into_iter().map(|q| v2(-q.x, -q.y)).collect();
    Shape { loops: vec![rect(-a, -b, a, b)], stock: Some(vec![vec![first], vec![second]]) }
}

/// Stock with two holes: mirrored about the axis between them the one is the other, but for its length. In cells as well.
fn holes(rad: f64, r: &mut Rng) -> Shape {
    let (near, half) = ((rad * r.range(0.15, 0.35)).ceil(), rad.ceil() + 2.0);
    let [first, second] = two(r, |r| near + (rad * r.range(2.1, 2.8)).ceil());
    let around = (rad * r.range(0.3, 0.5)).ceil();
    let (a, b) = (half + around, first.max(second) + around);
    let outer = rect(-a, -b, a, b);
    let holes = [rect(-half, near, half, first), rect(-half, -second, half, -near)];
    Shape { loops: vec![outer.clone()], stock: Some(vec![[&[outer], &holes[..]].concat()]) }
}

/// Two pieces that are equally near to the origin. Everything is exact in binary, and the rim points are even in number: their
/// own mirror images.
fn mirrored(j: &mut Job, r: &mut Rng) -> Shape {
    let (c, k) = (r.pick(&[0.0625, 0.125, 0.25]), r.pick(&[61.0, 62.0, 63.0]));
    j.params.tool_diameter = c * k;
    j.params.resolution = Some(c);
    j.params.max_engagement_deg = r.range(35.0, 70.0);
    let mut shape = if r.chance(0.6) { bars(0.5 * k, r) } else { holes(0.5 * k, r) };
    let turned = r.chance(0.5);
    shape.each_loop(|l| {
        for q in l {
            *q = if turned { v2(-q.y, q.x) } else { *q } * c;
        }
    });
    shape
}

/// Puts the loops into a job.
pub fn add(j: &mut Job, loops: Vec<Loop>, stock: Option<Vec<Vec<Loop>>>) {
    j.pocket = loops.iter().map(|l| l.len()).collect();
    for l in loops {
        j.verts.extend(l);
    }
    j.stock = stock.map(|s| {
        s.into_iter()
            .map(|r| {
                let lens = r.iter().map(|l| l.len()).collect();
                for l in r {
                    j.verts.extend(l);
                }
                lens
            })
            .collect()
    });
}

/// The shape of a kind about the origin; some kinds set parameters too. Half sides of 0.62 to 1.35
/// diameters make pockets of 1.24 to 2.7.
pub fn shape(kind: &str, j: &mut Job, r: &mut Rng) -> Shape {
    let d = j.params.tool_diameter;
    let cell = j.cell();
    let (a, b) = (d * r.range(0.62, 1.35), d * r.range(0.62, 1.35));
    let mut stock = None;
    let mut loops: Vec<Loop>;
    match kind {
        "circle" => {
            let n = r.below(60) as usize + 5;
            loops = vec![ring(Vec2::ZERO, a, n, r.range(0.0, 1.0))]
        }
        "ell" => {
            let (a, b) = (a * 1.2, b * 1.2);
            let (c, e) = (a * r.range(-0.2, 0.4), b * r.range(-0.2, 0.4));
            loops = vec![vec![v2(-a, -b), v2(a, -b), v2(a, e), v2(c, e), v2(c, b), v2(-a, b)]]
        }
        "star" => {
            let n = r.below(6) as usize + 3;
            let outer = ring(Vec2::ZERO, a * 1.5, n, 0.3);
            let inner = ring(Vec2::ZERO, a * r.range(0.5, 1.1), n, 0.3 + TAU / n as f64 * 0.5);
            loops = vec![outer.into_iter().zip(inner).flat_map(|(x, y)| [x, y]).collect()]
        }
        "islands" | "overlap" => {
            let (a, b) = (a + d * 0.3, b + d * 0.3);
            loops = vec![rect(-a, -b, a, b)];
            for _ in 0..r.below(4) + 1 {
                let c = v2(r.range(-a, a) * 0.8, r.range(-b, b) * 0.8);
                let n = r.below(8) as usize + 3;
                let big = if kind == "overlap" { 0.7 } else { 0.35 };
                let rr = d * r.range(0.05, big);
                loops.push(ring(c, rr, n, r.range(0.0, 3.0)));
                if kind == "overlap" && r.chance(0.6) {
                    loops.push(ring(c + v2(d * r.range(0.1, 0.8), 0.0), d * r.range(0.1, big), n, 0.1));
                }
            }
        }
        "open" => {
            loops = vec![rect(-a, -b, a, b)];
            let f = r.range(0.2, 0.9);
            let st = match r.below(5) {
                0 => rect(-a, -b, -a + 2.0 * a * f, b),
                1 => rect(-a * f, -b * f, a * f, b * f),
                2 => rect(-a - 1.0, -b + 2.0 * b * f, a + 1.0, b + 1.0),
                3 => ring(v2(r.range(-a, a), r.range(-b, b)), a * f, 20, 0.0),
                _ => vec![v2(-a, -b), v2(a, -b), v2(-a, b)],
            };
            stock = Some(vec![vec![st]]);
        }
        "bigstock" => {
            loops = vec![rect(-a, -b, a, b)];
            let mut v = vec![vec![
                rect(-3.0 * a, -3.0 * b, 3.0 * a, 3.0 * b),
                ring(v2(a * 0.3, 0.0), d * 0.4, 9, 0.2),
            ]];
            if r.chance(0.5) {
                v.push(vec![ring(v2(-a, 0.0), d, 17, 0.0)]);
            }
            stock = Some(v);
        }
        "manystock" => {
            loops = vec![rect(-a * 1.2, -b * 1.2, a * 1.2, b * 1.2)];
            let mut v = Vec::new();
            for _ in 0..r.below(15) + 1 {
                let n = r.below(9) as usize + 3;
                v.push(vec![ring(v2(r.range(-a, a), r.range(-b, b)), d * r.range(0.05, 0.7), n, 0.4)]);
            }
            stock = Some(v);
        }
        "nokeep" => {
            j.params.keep_tool_down = false;
            loops = vec![rect(-a, -b, a, b)];
            if r.chance(0.5) {
                stock = Some(vec![vec![rect(-a * 0.5, -b, a, b)]]);
            }
        }
        "tiny" => {
            let k = d * r.range(0.5, 0.75);
            loops = vec![rect(-k, -k * r.range(1.0, 1.2), k, k)];
            if r.chance(0.5) {
                j.params.helix_radius = Some(d * r.range(0.01, 0.3));
            }
        }
        "narrow" => {
            loops = vec![rect(-a, -d * r.range(0.2, 0.55), a, d * r.range(0.2, 0.55))];
        }
        "dumbbell" => {
            let (h, n, w) = (d * r.range(0.6, 0.9), d * r.range(0.3, 0.6), d * r.range(0.1, 0.5));
            let k = d * 1.5 * r.range(0.8, 1.1);
            loops = vec![vec![
                v2(-k - w, -h),
                v2(-w, -h),
                v2(-w, -n),
                v2(w, -n),
                v2(w, -h),
                v2(k + w, -h),
                v2(k + w, h),
                v2(w, h),
                v2(w, n),
                v2(-w, n),
                v2(-w, h),
                v2(-k - w, h),
            ]];
        }
        "frame" => {
            // Islands over the margins: every cell inside by even-odd, no outside cells.
            let m = 4.0 * cell;
            let (a, b) = (a * 1.7, b * 1.5);
            loops = vec![
                rect(-a, -b, a, b),
                rect(-a - m, -b - m, -a, b + m),
                rect(a, -b - m, a + m, b + m),
                rect(-a, -b - m, a, -b),
                rect(-a, b, a, b + m),
            ];
            if r.chance(0.5) {
                j.params.helix_radius = Some(d * r.range(0.2, 3.0));
            }
            if r.chance(0.7) {
                // Without it the helix search sees equal (infinite) distances and tries a corner only.
                let k = a * r.range(-0.6, 0.6);
                stock = Some(vec![vec![if r.chance(0.5) {
                    rect(-a, -b, k, b)
                } else {
                    rect(k, -b * 0.4, a, b * 0.4)
                }]]);
            }
        }
        "outisland" => {
            loops = vec![rect(-a, -b, a, b), ring(v2(a, b), d * r.range(0.1, 0.8), 12, 0.0)];
            if r.chance(0.4) {
                loops.push(rect(-a * 2.0, -b * 2.0, -a * 0.5, -b * 0.7));
            }
        }
        "bowtie" => {
            let (a, b) = (a * 1.5, b * 1.5);
            loops = vec![match r.below(3) {
                0 => vec![v2(-a, -b), v2(a, b), v2(a, -b), v2(-a, b)],
                1 => vec![
                    v2(-a, -b),
                    v2(a, -b),
                    v2(a, b),
                    v2(-a, b),
                    v2(-a, -b),
                    v2(a * 0.4, -b),
                    v2(a * 0.4, b * 0.4),
                ],
                _ => {
                    let p = ring(Vec2::ZERO, a, 5, 0.1);
                    vec![p[0], p[2], p[4], p[1], p[3]]
                }
            }];
        }
        "degenerate" => {
            loops = vec![match r.below(6) {
                0 => vec![v2(1.0, 2.0); 3],
                1 => vec![v2(-a, 0.0), v2(a, 0.0), v2(0.0, 0.0)],
                2 => vec![v2(0.0, -a), v2(0.0, a), v2(0.0, 0.0)],
                3 => vec![v2(-a, -b), v2(a, -b), v2(a, -b), v2(a, b), v2(a, b), v2(-a, b), v2(-a, -b)],
                4 => vec![v2(-a, -a), v2(a, a), v2(0.0, 0.0)],
                _ => {
                    let mut v = rect(-a, -b, a, b);
                    v.insert(1, v2(0.0, -b));
                    v.insert(1, v2(-a * 0.5, -b));
                    v.insert(1, v2(a * 0.7, -b));
                    v
                }
            }];
            if r.chance(0.3) {
                stock = Some(vec![vec![vec![v2(0.0, 0.0); 3]]]);
            }
        }
        "emptystock" => {
            loops = vec![rect(-a, -b, a, b)];
            stock = Some(match r.below(3) {
                0 => vec![],
                1 => vec![vec![rect(5.0 * a, 5.0 * b, 6.0 * a, 6.0 * b)]],
                _ => vec![vec![rect(-a, -b, -a + 0.3 * cell, b)]],
            });
        }
        "aligned" => {
            // Everything a whole number of cells, exact in binary.
            let c = r.pick(&[0.125, 0.0625, 0.25]);
            let k = r.pick(&[60.0, 64.0, 80.0, 96.0]);
            j.params.tool_diameter = c * k;
            j.params.resolution = if k == 80.0 && r.chance(0.5) { None } else { Some(c) };
            j.params.helix_radius = None;
            let w = |r: &mut Rng| c * (k * r.range(0.6, 1.2)).round();
            let (a, b) = (w(r), w(r));
            loops = vec![rect(-a, -b, a, b)];
            if r.chance(0.4) {
                stock = Some(vec![vec![rect(-a, -b, c * 7.0, b)]]);
            }
            if r.chance(0.3) {
                j.params.stock_to_leave = c * r.below(6) as f64;
            }
        }
        "comb" => {
            let w = d * r.range(0.9, 1.25);
            let g = d * r.range(0.15, 0.5);
            let h = d * r.range(0.8, 1.3);
            let base = d * r.range(1.1, 1.4);
            let n = r.below(2) as usize + 2;
            let mut v = vec![v2(0.0, 0.0), v2(n as f64 * (w + g) - g, 0.0)];
            for k in (0..n).rev() {
                let x0 = k as f64 * (w + g);
                v.push(v2(x0 + w, base + h));
                v.push(v2(x0, base + h));
                if k > 0 {
                    v.push(v2(x0, base));
                    v.push(v2(x0 - g, base));
                }
            }
            loops = vec![v];
        }
        "ringisle" => {
            let w = d * r.range(0.9, 1.4);
            let i = d * r.range(0.1, 0.4);
            loops = vec![ring(Vec2::ZERO, w + i, 24, 0.0), ring(Vec2::ZERO, i, 16, 0.0)];
        }
        "leave" => {
            j.params.stock_to_leave = d * r.range(0.0, 0.4);
            loops = vec![rect(-a - j.params.stock_to_leave, -b, a, b + j.params.stock_to_leave)];
        }
        "rotrect" => {
            let mut l = rect(-a, -b, a, b);
            turn(&mut l, r.range(0.0, TAU));
            loops = vec![l];
        }
        "nested" => {
            let (a, b) = (d * r.range(0.7, 1.0), d * r.range(0.7, 1.0));
            loops = vec![rect(-a, -b, a, b)];
            let (c, n) = (cornered(a, b, r), r.below(8) as usize + 3);
            let mut size = d * r.range(0.15, 0.45);
            for _ in 0..r.below(3) + 2 {
                loops.push(ring(c, size, n, 0.2));
                size *= r.range(0.3, 0.8);
            }
        }
        "bosses" => {
            let (a, b) = (d * r.range(0.7, 1.0), d * r.range(0.7, 1.0));
            loops = vec![rect(-a, -b, a, b)];
            loops.extend(bosses(cornered(a, b, r), d * r.range(0.15, 0.45), r));
        }
        "stockisles" => {
            let (a, b) = (d * r.range(0.6, 1.0), d * r.range(0.6, 1.0));
            loops = vec![rect(-a, -b, a, b)];
            let mut regions = vec![vec![rect(-a, -b, a * r.range(-0.3, 1.2), b)]];
            if r.chance(0.5) {
                regions.push(vec![ring(v2(a * r.range(-0.2, 0.6), 0.0), d * r.range(0.5, 0.9), 11, 0.2)]);
            }
            for region in &mut regions {
                let c = v2(r.range(-a, a), r.range(-b, b)) * 0.8;
                region.extend(bosses(c, d * r.range(0.15, 0.5), r));
            }
            stock = Some(regions);
        }
        "crossed" => {
            let (a, b) = (d * r.range(0.7, 0.95), d * r.range(0.7, 0.9));
            let outer = if r.chance(0.7) { curled(a, b, d, r) } else { crossing(Vec2::ZERO, a * 1.1, r) };
            loops = vec![outer];
            if r.chance(0.6) {
                let c = v2(a * r.range(-0.8, 0.8), b * r.range(0.6, 1.0));
                loops.push(ring(c, d * r.range(0.05, 0.3), 6, 0.2));
            }
        }
        "crossisles" => {
            let (a, b) = (d * r.range(0.7, 1.0), d * r.range(0.7, 1.0));
            loops = vec![rect(-a, -b, a, b)];
            let (c, size) = (cornered(a, b, r), d * r.range(0.15, 0.45));
            loops.push(crossing(c, size, r));
            match r.below(3) {
                0 => {}
                1 => loops.push(crossing(c + v2(size * r.range(-0.8, 0.8), 0.0), size, r)),
                _ => loops.extend(bosses(c, size, r)),
            }
        }
        "mirrored" => Shape { loops, stock } = mirrored(j, r),
        "exact" if r.chance(0.7) => {
            let n = r.below(30) as usize + 3;
            loops = vec![ring(Vec2::ZERO, a * 1.2, n, r.range(0.0, 1.0))];
            if r.chance(0.5) {
                let c = v2(r.range(-a, a), r.range(-a, a));
                loops.push(ring(c, d * r.range(0.05, 0.3), 5, 0.3));
            }
        }
        _ => {
            loops = vec![rect(-a, -b, a, b)];
        }
    }
    Shape { loops, stock }
}
