//! The paper of a picture: where a point of the pocket lies on it, and the path of a line.
use super::thin::Spot;
use pocket::{Grid, Point};
use std::fmt::Write;

/// The plot's frame, in pixels.
pub struct Paper {
    pub left: f64,
    pub top: f64,
    pub width: f64,
    pub height: f64,
    /// Pixels of a mm.
    pub scale: f64,
    /// The mm at the frame's left and lower side.
    pub x: f64,
    pub y: f64,
}

impl Paper {
    /// A frame around a raster, no larger than this.
    pub fn new(grid: &Grid, [left, top]: Spot, [width, height]: Spot) -> Paper {
        let (w, h) = (grid.nx as f64 * grid.cell, grid.ny as f64 * grid.cell);
        let edge = 0.02 * w.max(h);
        let (w, h) = (w + 2.0 * edge, h + 2.0 * edge);
        let scale = (width / w).min(height / h);
        let (x, y) = (grid.origin.x - edge, grid.origin.y - edge);
        Paper { left, top, width: w * scale, height: h * scale, scale, x, y }
    }

    pub fn across(&self, x: f64) -> f64 {
        self.left + (x - self.x) * self.scale
    }

    pub fn down(&self, y: f64) -> f64 {
        self.top + self.height - (y - self.y) * self.scale
    }

    pub fn spot(&self, p: Point) -> Spot {
        [self.across(p.x), self.down(p.y)]
    }
}

/// A number to the nearest tenth.
pub fn short(v: f64) -> String {
    tenths(rounded(v))
}

fn rounded(v: f64) -> i64 {
    (v * 10.0).round() as i64
}

fn tenths(v: i64) -> String {
    let sign = if v < 0 { "-" } else { "" };
    match (v.unsigned_abs() / 10, v.unsigned_abs() % 10) {
        (whole, 0) => format!("{sign}{whole}"),
        (0, part) => format!("{sign}.{part}"),
        (whole, part) => format!("{sign}{whole}.{part}"),
    }
}

/// A path's data: lines, each by its first point and the steps between rounded points.
#[derive(Default)]
pub struct Path(String);

impl Path {
    pub fn line(&mut self, points: &[Spot]) {
        let mut points = points.iter().map(|p| p.map(rounded));
        let Some(mut last) = points.next() else { return };
        let _ = write!(self.0, "M{} {}", tenths(last[0]), tenths(last[1]));
        let mut mark = "l";
        for next in points {
            if next != last {
                // A minus parts two numbers too.
                let [x, y] = [0, 1].map(|k| tenths(next[k] - last[k]));
                let [before, between] = [&x, &y].map(|v| if v.starts_with('-') { "" } else { " " });
                let before = if mark.is_empty() { before } else { mark };
                let _ = write!(self.0, "{before}{x}{between}{y}");
                (last, mark) = (next, "");
            }
        }
    }

    pub fn closed(&mut self, points: &[Spot]) {
        self.line(points);
        self.0.push('z');
    }

    pub fn is_empty(&self) -> bool {
        self.0.is_empty()
    }

    pub fn data(&self) -> &str {
        &self.0
    }
}

/// Text as it stands between tags or in quotes.
pub fn escaped(text: &str) -> String {
    let mut s = String::new();
    for c in text.chars() {
        match c {
            '&' => s.push_str("&amp;"),
            '<' => s.push_str("&lt;"),
            '>' => s.push_str("&gt;"),
            '"' => s.push_str("&quot;"),
            c if c.is_control() || matches!(c, '\u{fffe}' | '\u{ffff}') => s.push('.'),
            c => s.push(c),
        }
    }
    s
}

/// A text at a place of the paper.
pub fn text(anchor: &str, at: Spot, text: &str) -> String {
    let [x, y] = at.map(short);
    format!("<text x=\"{x}\" y=\"{y}\" text-anchor=\"{anchor}\">{}</text>", escaped(text))
}
