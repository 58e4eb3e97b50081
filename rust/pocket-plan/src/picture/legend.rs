//! The legend beside the plot: the scale of contact, the signs, the tool's size.
use super::Drawing;
use super::paper::{short, text};
use super::scale::Scale;
use crate::words::{self, count, decimal};
use std::fmt::Write;

/// The least height of a picture, for the legend to fit.
pub const HEIGHT: f64 = 668.0;

/// The bar of colours.
const TOP: f64 = 116.0;
const BAR: f64 = 200.0;
const WIDTH: f64 = 22.0;

/// From one sign to the next.
const LINE: f64 = 23.0;

/// The largest radius of a tool that is shown.
const LARGEST: f64 = 40.0;

/// Where a contact stands on the bar.
fn height(scale: &Scale, degrees: f64) -> f64 {
    TOP + BAR * (1.0 - degrees / scale.limit)
}

/// The steps of contact.
fn bar(scale: &Scale, x: f64) -> String {
    let step = |step: usize| {
        let (low, high) = (height(scale, scale.edge(step)), height(scale, scale.edge(step + 1)));
        let [x, y, h] = [x, high, low - high].map(short);
        let color = scale.color(step);
        format!("<rect x=\"{x}\" y=\"{y}\" width=\"{WIDTH}\" height=\"{h}\" fill=\"{color}\"/>\n")
    };
    (0..scale.steps()).map(step).collect()
}

/// The degrees between the steps; the number before the limit is left out where the limit's would stand over it.
fn degrees(scale: &Scale, x: f64) -> String {
    let last = scale.steps();
    let near =
        |step: usize| step + 1 == last && height(scale, scale.edge(step)) - height(scale, scale.limit) < 13.0;
    let mark = |step: usize| {
        let y = height(scale, scale.edge(step));
        let label = decimal(scale.edge(step), 3) + if step == last { " limit" } else { "" };
        let [tick, at] = [x, y].map(short);
        format!("<path class=\"tick\" d=\"M{tick} {at}h5\"/>{}\n", text("start", [x + 9.0, y + 4.0], &label))
    };
    (0..=last).filter(|step| !near(*step)).map(mark).collect()
}

/// An arrow beside the bar.
fn arrow(x: f64, y: f64) -> String {
    format!("<path d=\"M{} {}l-7 -4v8z\"/>", short(x - 1.0), short(y))
}

impl Drawing<'_> {
    pub(super) fn legend(&mut self) {
        let x = self.paper.left + self.paper.width + 28.0;
        let (scale, greatest) = (&self.scale, self.scene.plan.report.planned_max_engagement_deg);
        let below = TOP + BAR + 22.0;
        let told = format!("greatest planned {}", decimal(greatest, 1));
        let points = words::rim_points(self.scene);
        let parts = [
            text("start", [x, TOP - 26.0], "Contact of a pass (degrees)"),
            bar(scale, x),
            degrees(scale, x + WIDTH),
            arrow(x, height(scale, greatest)),
            arrow(x, below) + &text("start", [x + 6.0, below + 4.0], &told),
            points.map_or(String::new(), |points| text("start", [x + 6.0, below + 22.0], &points)),
            self.signs(x, below + 52.0),
        ];
        self.put(parts.join("\n"));
    }

    fn signs(&self, x: f64, top: f64) -> String {
        let r = &self.scene.plan.report;
        let middle = self.scale.color(self.scale.steps() / 2);
        let pass = format!("<path class=\"pass\" stroke=\"{middle}\" stroke-width=\"2\" d=\"M0 0h28\"/>");
        let signs = [
            ("<path class=\"wall\" d=\"M0 0h28\"/>", "wall of the pocket".to_string()),
            (
                "<rect class=\"edge\" x=\"3\" y=\"-8\" width=\"22\" height=\"16\"/>\
                 <rect class=\"island\" x=\"3\" y=\"-8\" width=\"22\" height=\"16\"/>",
                format!("island ({})", count(self.scene.pocket.islands.len())),
            ),
            (
                "<rect class=\"stock\" x=\"3\" y=\"-8\" width=\"22\" height=\"16\" stroke=\"#bbb\"/>",
                "starting stock".into(),
            ),
            ("<rect class=\"left\" x=\"3\" y=\"-8\" width=\"22\" height=\"16\"/>", "stock left".into()),
            (pass.as_str(), format!("pass ({})", count(r.passes))),
            ("<path class=\"link\" d=\"M0 0h28\"/>", format!("link at depth ({})", count(r.links))),
            ("<path class=\"plunge\" d=\"M14 3l-3 -5.5h6z\"/>", format!("plunge ({})", count(r.retracts))),
            (
                "<circle class=\"helix\" cx=\"14\" r=\"4\"/><circle class=\"disk\" cx=\"14\" r=\"9\"/>",
                format!("helix and its disk ({})", count(r.helix_entries)),
            ),
        ];
        let mut s = String::new();
        for (k, (sign, name)) in signs.iter().enumerate() {
            let y = short(top + k as f64 * LINE);
            let _ = writeln!(
                s,
                "<g transform=\"translate({} {y})\">{sign}<text x=\"38\" y=\"4\">{name}</text></g>",
                short(x)
            );
        }
        s + &self.tool(x, top + signs.len() as f64 * LINE)
    }

    /// The tool to scale, where it is not too large for the legend.
    fn tool(&self, x: f64, top: f64) -> String {
        let diameter = self.scene.job.params.tool_diameter;
        let radius = diameter / 2.0 * self.paper.scale;
        if radius > LARGEST {
            return String::new();
        }
        let (half, y) = (radius.max(14.0), top + radius);
        let [cx, cy, r] = [x + half, y, radius].map(short);
        let name = text("start", [x + 2.0 * half + 10.0, y + 4.0], "tool to scale");
        format!("<circle class=\"tool\" cx=\"{cx}\" cy=\"{cy}\" r=\"{r}\"/>{name}")
    }
}
