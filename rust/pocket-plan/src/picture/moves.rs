//! The ways between passes: links, plunges and helices.
use super::paper::{Path, short};
use super::thin::{Spot, thin};
use super::{Drawing, SLACK};
use crate::words;
use pocket::{Chunk, Point};

impl Drawing<'_> {
    /// Links, plunges and helices.
    pub(super) fn moves(&mut self) {
        let mut links = Path::default();
        let mut way: Vec<Spot> = Vec::new();
        let mut marks = String::new();
        let radius = self.scene.job.params.tool_diameter / 2.0;
        let mut at: Option<Spot> = None;
        for chunk in self.scene.plan.chunks() {
            if let (Chunk::Link(to), Some(from)) = (&chunk, at) {
                if way.is_empty() {
                    way.push(from);
                }
                way.push(self.paper.spot(*to));
            } else {
                links.line(&thin(&way, SLACK));
                way.clear();
            }
            match &chunk {
                Chunk::Helix { center, radius: helix } => {
                    marks += &self.helix(*center, *helix, helix + radius);
                }
                Chunk::Plunge(to) => marks += &self.plunge(*to),
                Chunk::Link(_) | Chunk::Cut(_) => {}
            }
            at = chunk.end().map(|p| self.paper.spot(p)).or(at);
        }
        self.put(format!("<path class=\"link\" d=\"{}\"/>", links.data()));
        self.put(marks);
    }

    fn helix(&self, center: Point, radius: f64, cleared: f64) -> String {
        let [x, y] = self.paper.spot(center).map(short);
        let [r, disk] = [radius, cleared].map(|r| short(r * self.paper.scale));
        let [cx, cy, mm] = [center.x, center.y, radius].map(|v| words::decimal(v, 3));
        format!(
            "<g><title>helix at ({cx}, {cy}), radius {mm} mm</title><circle class=\"disk\" cx=\"{x}\" cy=\"{y}\" r=\"{disk}\"/>\
             <circle class=\"helix\" cx=\"{x}\" cy=\"{y}\" r=\"{r}\"/></g>\n"
        )
    }

    fn plunge(&self, at: Point) -> String {
        let [x, y] = self.paper.spot(at).map(short);
        let [px, py] = [at.x, at.y].map(|v| words::decimal(v, 3));
        format!(
            "<path class=\"plunge\" d=\"M{x} {y}l-3 -5.5h6z\"><title>plunge at ({px}, {py})</title></path>\n"
        )
    }
}
