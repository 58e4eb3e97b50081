//! The plan as a picture, in SVG.
mod axes;
mod legend;
mod moves;
mod paper;
mod scale;
mod thin;

use crate::scene::Scene;
use crate::words;
pub use paper::escaped;
use paper::{Paper, Path, short};
use pocket::{Chunk, Cut, Point, Shape};
use scale::Scale;
use thin::{Spot, outlines, thin};

/// The plot's place and largest size, and the room for the legend, in pixels.
const CORNER: Spot = [64.0, 76.0];
const PLOT: Spot = [900.0, 700.0];
const LEGEND: f64 = 236.0;
const FOOT: f64 = 56.0;

/// The least width of a picture, for the title to fit.
const NARROWEST: f64 = 760.0;

/// How far a thinned line may be from its points, in pixels.
const SLACK: f64 = 0.15;

/// The least length of a pass in one colour, that of the greatest contact on it, in pixels.
const SHORTEST: f64 = 3.0;

/// Colours and patterns of what is drawn; the legend shows them too.
const STYLE: &str = "\
text{font-family:Helvetica,Arial,sans-serif;font-size:12px;fill:#222}
.title{font-size:19px;font-weight:bold}
.small{font-size:12px;fill:#555}
.frame{fill:none;stroke:#888}
.tick{stroke:#888}
.grid{stroke:#000;stroke-opacity:.07}
.stock{fill:#ecebe6}
.left{fill:#4d7a86;fill-rule:evenodd}
.wall{fill:none;stroke:#222;stroke-width:1.6;stroke-linejoin:round}
.edge{fill:none;stroke:#222;stroke-width:3.2;stroke-linejoin:round}
.island{fill:url(#hatch);fill-rule:evenodd}
.pass{fill:none;stroke-linejoin:round;stroke-linecap:round}
.link{fill:none;stroke:#2b2b2b;stroke-width:.7;stroke-opacity:.5;stroke-dasharray:3 2}
.plunge{fill:#fff;stroke:#000;stroke-width:.9;stroke-linejoin:round}
.helix{fill:none;stroke:#000;stroke-width:2}
.disk{fill:none;stroke:#000;stroke-width:1;stroke-dasharray:1 2.5}
.tool{fill:#fff;stroke:#222;stroke-width:1.2}
";

const HATCH: &str = "<pattern id=\"hatch\" width=\"7\" height=\"7\" patternUnits=\"userSpaceOnUse\" \
    patternTransform=\"rotate(45)\"><rect width=\"7\" height=\"7\" fill=\"#fff\"/>\
    <line x1=\"0\" y1=\"0\" x2=\"0\" y2=\"7\" stroke=\"#999\" stroke-width=\"1.6\"/></pattern>";

/// The steps of the contact scale up to a limit: how many degrees each has, and its colour.
pub fn steps(limit: f64) -> (f64, Vec<String>) {
    let scale = Scale::new(limit);
    (scale.step, (0..scale.steps()).map(|step| scale.color(step)).collect())
}

/// What is drawn, on its paper.
struct Drawing<'a> {
    scene: &'a Scene,
    paper: Paper,
    scale: Scale,
    svg: String,
}

/// The picture of a plan.
pub fn svg(scene: &Scene) -> String {
    let paper = Paper::new(&scene.plan.grid, CORNER, PLOT);
    let scale = Scale::new(scene.job.params.max_engagement_deg);
    let mut drawing = Drawing { scene, paper, scale, svg: String::new() };
    drawing.all();
    drawing.svg
}

/// The end of the part of a pass that begins here: the last point, or the first that is far enough along it.
fn part(spots: &[Spot], from: usize) -> usize {
    let mut length = 0.0;
    for k in from + 1..spots.len() {
        length += (spots[k][0] - spots[k - 1][0]).hypot(spots[k][1] - spots[k - 1][1]);
        if length >= SHORTEST {
            return k;
        }
    }
    spots.len() - 1
}

impl Drawing<'_> {
    fn put(&mut self, line: impl AsRef<str>) {
        self.svg.push_str(line.as_ref());
        self.svg.push('\n');
    }

    fn all(&mut self) {
        let height = (CORNER[1] + self.paper.height + FOOT).max(legend::HEIGHT);
        let width = (CORNER[0] + self.paper.width + LEGEND).max(NARROWEST);
        let (w, h) = (short(width), short(height));
        self.put(format!(
            "<svg xmlns=\"http://www.w3.org/2000/svg\" width=\"{w}\" height=\"{h}\" viewBox=\"0 0 {w} {h}\">"
        ));
        self.put(format!("<style>\n{STYLE}</style>"));
        self.definitions();
        self.put(format!("<rect width=\"{w}\" height=\"{h}\" fill=\"#fff\"/>"));
        self.title();
        self.axes();
        self.put("<g clip-path=\"url(#plot)\">");
        self.regions();
        self.passes();
        self.moves();
        self.put("</g>");
        self.frame();
        self.legend();
        self.put("</svg>");
    }

    fn frame_rect(&self, class: &str) -> String {
        let p = &self.paper;
        let [x, y, w, h] = [p.left, p.top, p.width, p.height].map(short);
        format!("<rect{class} x=\"{x}\" y=\"{y}\" width=\"{w}\" height=\"{h}\"/>")
    }

    fn definitions(&mut self) {
        let plot = self.frame_rect("");
        let pocket = self.outline(&self.scene.pocket.outer);
        let data = pocket.data();
        self.put(format!("<defs>{HATCH}<clipPath id=\"plot\">{plot}</clipPath>"));
        self.put(format!(
            "<clipPath id=\"pocket\"><path clip-rule=\"evenodd\" d=\"{data}\"/></clipPath></defs>"
        ));
    }

    fn title(&mut self) {
        let Scene { name, job, plan, .. } = self.scene;
        let (p, r) = (&job.params, &plan.report);
        let name = escaped(name);
        let contact = format!("contact at most {}\u{b0}", p.max_engagement_deg);
        let x = short(CORNER[0]);
        self.put(format!(
            "<text class=\"title\" x=\"{x}\" y=\"32\">{name}: tool {} mm, {contact}</text>",
            p.tool_diameter
        ));
        let areas =
            [r.removed_area, self.scene.starting_area(), r.remaining_reachable_area, r.unreachable_area];
        let [removed, starting, left, out] = areas.map(|a| words::decimal(a, 1));
        let each = if r.layers == 1 { String::new() } else { format!(" in each of {} layers", r.layers) };
        let rest = format!("left in reach {left} mm\u{b2}, out of reach {out} mm\u{b2}");
        self.put(format!(
            "<text class=\"small\" x=\"{x}\" y=\"54\">removed {removed} of {starting} mm\u{b2}{each}; {rest}</text>"
        ));
    }

    fn frame(&mut self) {
        let frame = self.frame_rect(" class=\"frame\"");
        self.put(frame);
    }

    fn outline(&self, points: &[Point]) -> Path {
        let mut path = Path::default();
        path.closed(&points.iter().map(|p| self.paper.spot(*p)).collect::<Vec<_>>());
        path
    }

    /// A region: its outer loop where a mask hides no island. Each loop by itself is filled by even and odd.
    fn region(&self, name: &str, shape: &Shape) -> String {
        let (plot, outer) = (self.frame_rect(" fill=\"#fff\""), self.outline(&shape.outer));
        let island = |points: &Vec<Point>| {
            format!("<path fill-rule=\"evenodd\" d=\"{}\"/>", self.outline(points).data())
        };
        let islands: String = shape.islands.iter().map(island).collect();
        format!(
            "<mask id=\"{name}\" maskUnits=\"userSpaceOnUse\">{plot}{islands}</mask>\n\
             <path class=\"stock\" fill-rule=\"evenodd\" mask=\"url(#{name})\" d=\"{}\"/>",
            outer.data()
        )
    }

    fn regions(&mut self) {
        let scene = self.scene;
        let stock = scene.stock.as_deref().unwrap_or(std::slice::from_ref(&scene.pocket));
        self.put("<g clip-path=\"url(#pocket)\">");
        for (k, shape) in stock.iter().enumerate() {
            let region = self.region(&format!("stock{k}"), shape);
            self.put(region);
        }
        self.put("</g>");
        let left = self.left();
        self.put(format!("<path class=\"left\" d=\"{}\"/>", left.data()));
        // What an island has beyond the outer loop is no part of the pocket. The edges lie below all islands, so that none
        // is seen where two overlap.
        self.put("<g clip-path=\"url(#pocket)\">");
        for class in ["edge", "island"] {
            for island in &scene.pocket.islands {
                let path = self.outline(island);
                self.put(format!("<path class=\"{class}\" d=\"{}\"/>", path.data()));
            }
        }
        self.put("</g>");
        let path = self.outline(&scene.pocket.outer);
        self.put(format!("<path class=\"wall\" d=\"{}\"/>", path.data()));
    }

    /// The outlines of the stock that is left, smoothed by less than a cell.
    fn left(&self) -> Path {
        let Scene { plan, .. } = self.scene;
        let grid = &plan.grid;
        let slack = (0.75 * grid.cell * self.paper.scale).min(0.75);
        let mut path = Path::default();
        for line in outlines(&plan.map, grid.nx, grid.ny) {
            let corner = |&(i, j): &(usize, usize)| {
                let along = |origin: f64, k: usize| origin + k as f64 * grid.cell;
                self.paper.spot(Point::new(along(grid.origin.x, i), along(grid.origin.y, j)))
            };
            let mut spots: Vec<Spot> = line.iter().map(corner).collect();
            spots.extend(spots.first().copied());
            path.closed(&thin(&spots, slack));
        }
        path
    }

    /// The cuts, a path for each step of the scale; a step of the way has the contact at its end.
    fn passes(&mut self) {
        let mut paths: Vec<Path> = (0..self.scale.steps()).map(|_| Path::default()).collect();
        for chunk in self.scene.plan.chunks() {
            if let Chunk::Cut(cuts) = chunk {
                self.pass(&cuts, &mut paths);
            }
        }
        let width = short(self.pass_width());
        for (step, path) in paths.iter().enumerate().filter(|(_, path)| !path.is_empty()) {
            let color = self.scale.color(step);
            let data = path.data();
            self.put(format!(
                "<path class=\"pass\" stroke=\"{color}\" stroke-width=\"{width}\" d=\"{data}\"/>"
            ));
        }
    }

    /// Passes lie about a bite apart; a line takes a third of it.
    fn pass_width(&self) -> f64 {
        let p = &self.scene.job.params;
        let bite = p.tool_diameter / 2.0 * (1.0 - p.max_engagement_deg.to_radians().cos());
        (bite * self.paper.scale / 3.0).clamp(0.5, 1.7)
    }

    /// Adds a pass to the paths of its steps.
    fn pass(&self, cuts: &[Cut], paths: &mut [Path]) {
        let spots: Vec<Spot> = cuts.iter().map(|cut| self.paper.spot(cut.at)).collect();
        let mut parts: Vec<(usize, usize, usize)> = Vec::new();
        let mut from = 0;
        while from + 1 < cuts.len() {
            let to = part(&spots, from);
            let greatest = cuts[from + 1..=to].iter().map(|cut| cut.angle).fold(0.0, f64::max);
            let step = self.scale.step_of(greatest.to_degrees());
            match parts.last_mut().filter(|last| last.2 == step) {
                Some(last) => last.1 = to,
                None => parts.push((from, to, step)),
            }
            from = to;
        }
        for (from, to, step) in parts {
            paths[step].line(&thin(&spots[from..=to], SLACK));
        }
    }
}
