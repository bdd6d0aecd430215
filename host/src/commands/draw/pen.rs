//! Path data: the commands of an SVG path, in pixels.

use std::fmt::Write;

use dwg_hatch::Point2D;

use super::arcs::Arc;
use super::runs::{self, Run, Step};
use super::view::View;

/// Half of the length of a seed's cross, in pixels.
const CROSS: f64 = 4.0;

/// Above this part of a turn an arc is written as two halves: the ends of a whole circle are one point, which gives no arc.
const GREATEST_SWEEP: f64 = 1.5 * std::f64::consts::PI;

/// Writes path data of what lies in a view.
pub struct Pen<'a> {
    /// The view.
    pub view: &'a View,
}

impl Pen<'_> {
    /// A run's outline.
    pub fn line(&self, run: &Run) -> String {
        let close = if run.is_closed { "Z" } else { "" };
        format!("M{}{}{close}", self.point(run.start), self.steps(&run.steps))
    }

    /// What a path's runs hold: one area, whose runs are joined where there is a gap between them.
    pub fn area(&self, runs: &[Run]) -> String {
        let mut data = String::new();
        let mut at = None;
        for run in runs::chained(runs) {
            let start = self.point(run.start);
            match &at {
                None => data.extend(["M", &start]),
                Some(end) if *end != start => data.extend(["L", &start]),
                Some(_) => {}
            }
            data.push_str(&self.steps(&run.steps));
            at = Some(self.point(run.end()));
        }
        data + "Z"
    }

    /// The cross of a seed point.
    pub fn cross(&self, seed: Point2D) -> String {
        let Point2D { x, y } = self.view.place(seed);
        let [left, right, up, down] = [x - CROSS, x + CROSS, y - CROSS, y + CROSS].map(number);
        format!("M{left} {}L{right} {}M{} {up}L{} {down}", number(y), number(y), number(x), number(x))
    }

    fn steps(&self, steps: &[Step]) -> String {
        let step = |step: &Step| match step {
            Step::Line(end) => format!("L{}", self.point(*end)),
            Step::Curve(points) => format!("C{}", points.map(|point| self.point(point)).join(" ")),
            Step::Arc(arc, end) if arc.sweep.abs() > GREATEST_SWEEP => {
                let [first, second] = arc.halves();
                self.arc(&first, first.at(second.start)) + &self.arc(&second, *end)
            }
            Step::Arc(arc, end) => self.arc(arc, *end),
        };
        steps.iter().map(step).collect()
    }

    /// Radii, the major axis's angle in degrees, whether it is more than half a turn, whether angles rise, and the end. In the picture y runs
    /// down and angles rise clockwise, so the axis's angle changes its sign, and what is counterclockwise in both has falling angles.
    fn arc(&self, arc: &Arc, end: Point2D) -> String {
        let [major, minor] = arc.radii().map(|radius| number(radius * self.view.scale));
        let angle = if major == minor { 0.0 } else { -arc.major.y.atan2(arc.major.x).to_degrees() };
        let large = u8::from(arc.sweep.abs() > std::f64::consts::PI);
        let rising = u8::from(!arc.is_counter_clockwise());
        format!("A{major} {minor} {} {large} {rising} {}", number(angle), self.point(end))
    }

    fn point(&self, point: Point2D) -> String {
        pixels(self.view.place(point))
    }
}

/// A stroke from one point of the picture to another. Where both are one point, it is a dot.
pub fn stroke([from, to]: [Point2D; 2]) -> String {
    format!("M{}L{}", pixels(from), pixels(to))
}

/// A point of the picture.
fn pixels(point: Point2D) -> String {
    format!("{} {}", number(point.x), number(point.y))
}

/// A number of the picture, to a hundred-thousandth of a pixel.
pub fn number(value: f64) -> String {
    let mut text = String::new();
    // Writing to a string does not fail.
    let _ = write!(text, "{value:.5}");
    let text = text.trim_end_matches('0').trim_end_matches('.');
    if text == "-0" { "0".to_string() } else { text.to_string() }
}

/// Text as XML has it. Characters that XML does not allow, and those that control, are left out.
pub fn escaped(text: &str) -> String {
    let mut safe = String::with_capacity(text.len());
    for letter in text.chars() {
        match letter {
            '&' => safe.push_str("&amp;"),
            '<' => safe.push_str("&lt;"),
            '>' => safe.push_str("&gt;"),
            '"' => safe.push_str("&quot;"),
            '\u{fffe}' | '\u{ffff}' => {}
            letter if letter.is_control() => {}
            letter => safe.push(letter),
        }
    }
    safe
}

#[cfg(test)]
#[path = "pen_tests.rs"]
mod tests;
