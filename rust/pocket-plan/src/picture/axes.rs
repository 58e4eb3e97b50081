//! The plot's axes.
use super::Drawing;
use super::paper::{Paper, short, text};
use super::scale::round_step;
use crate::words::decimal;
use std::fmt::Write;

/// The least distance of two ticks, in pixels.
const APART: f64 = 70.0;

/// Multiples of a step from a number on, over a length.
fn ticks(step: f64, from: f64, length: f64) -> impl Iterator<Item = f64> {
    let (first, last) = ((from / step).ceil() as i64, ((from + length) / step).floor() as i64);
    (first..=last).map(move |k| k as f64 * step)
}

impl Drawing<'_> {
    /// Ticks with their mm, and faint lines across the plot.
    pub(super) fn axes(&mut self) {
        let p = &self.paper;
        let step = round_step(APART / p.scale);
        let decimals = (-step.log10().floor()).max(0.0) as usize;
        let mut s = String::new();
        for x in ticks(step, p.x, p.width / p.scale) {
            s += &upright(p, p.across(x), &decimal(x, decimals));
        }
        for y in ticks(step, p.y, p.height / p.scale) {
            s += &level(p, p.down(y), &decimal(y, decimals));
        }
        s += &text("middle", [p.left + p.width / 2.0, p.top + p.height + 38.0], "x (mm)");
        let (x, y) = (short(p.left - 46.0), short(p.top + p.height / 2.0));
        let _ = write!(
            s,
            "<g transform=\"translate({x} {y}) rotate(-90)\">{}</g>",
            text("middle", [0.0, 0.0], "y (mm)")
        );
        self.put(s);
    }
}

/// A line across the plot from bottom to top, its tick and number below.
fn upright(p: &Paper, at: f64, label: &str) -> String {
    let (x, top, bottom) = (short(at), short(p.top), short(p.top + p.height));
    let lines = format!(
        "<path class=\"grid\" d=\"M{x} {top}V{bottom}\"/><path class=\"tick\" d=\"M{x} {bottom}v5\"/>"
    );
    lines + &text("middle", [at, p.top + p.height + 19.0], label) + "\n"
}

/// A line across the plot from left to right, its tick and number at the left.
fn level(p: &Paper, at: f64, label: &str) -> String {
    let (y, left, right) = (short(at), short(p.left), short(p.left + p.width));
    let lines = format!(
        "<path class=\"grid\" d=\"M{left} {y}H{right}\"/><path class=\"tick\" d=\"M{left} {y}h-5\"/>"
    );
    lines + &text("end", [p.left - 9.0, at + 4.0], label) + "\n"
}
