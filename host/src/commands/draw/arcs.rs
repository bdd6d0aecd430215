//! Polylines with bulges, circular arcs and elliptical arcs.

use std::f64::consts::{PI, TAU};

use dwg_hatch::{Point2D, Vertex};

use super::runs::{self, Run, Step};
use crate::commands::angles::Swept;

/// Below this bulge a segment is drawn as a cubic Bezier curve, which is off the arc by less than 1e-11 of the chord. The arc's centre would
/// be so far away that a picture's reader with single precision misses the arc's ends.
const FLAT_BULGE: f64 = 0.01;

/// The angle of such a segment: a bulge is the tangent of a quarter of it.
const FLAT_SWEEP: f64 = 0.04;

/// A part of an ellipse: the points `center + major * cos t + minor * sin t`, where `minor` is `major` turned by a quarter counterclockwise
/// and times `ratio`, for `t` from `start` to `start + sweep`.
#[derive(Clone, Copy, Debug, PartialEq)]
pub struct Arc {
    /// The centre.
    pub center: Point2D,
    /// From the centre to the major axis's end.
    pub major: Point2D,
    /// The minor axis by the major one; 1 for a circle.
    pub ratio: f64,
    /// Where it starts, in radians.
    pub start: f64,
    /// How far it goes, a turn at most; negative where `t` falls.
    pub sweep: f64,
}

impl Arc {
    /// The arc of an edge. Its angles are values of `t`; for an ellipse that is no circle they are not the angles of rays from the centre.
    pub fn of_edge(center: Point2D, major: Point2D, ratio: f64, angles: [f64; 2], counter_clockwise: bool) -> Arc {
        let Swept { start, sweep } = Swept::of_edge(angles, counter_clockwise);
        Arc { center, major, ratio, start, sweep }
    }

    /// The point at `t`.
    pub fn at(&self, t: f64) -> Point2D {
        let (sin, cos) = t.sin_cos();
        let minor = self.minor();
        Point2D { x: self.center.x + (self.major.x * cos + minor.x * sin), y: self.center.y + (self.major.y * cos + minor.y * sin) }
    }

    /// The arc as a run.
    pub fn run(&self) -> Run {
        let (start, end) = (self.at(self.start), self.at(self.start + self.sweep));
        let step = if self.sweep.abs() < FLAT_SWEEP { self.flat(start, end) } else { Step::Arc(*self, end) };
        Run { start, steps: vec![step], is_closed: self.sweep.abs() == TAU, instead: None }
    }

    /// Both halves of it.
    pub fn halves(&self) -> [Arc; 2] {
        let sweep = self.sweep / 2.0;
        [Arc { sweep, ..*self }, Arc { start: self.start + sweep, sweep, ..*self }]
    }

    /// The same arc from its end to its start.
    pub fn reversed(&self) -> Arc {
        Arc { start: self.start + self.sweep, sweep: -self.sweep, ..*self }
    }

    /// The same arc with the sign of each x changed: the minor axis is then on the major one's other side.
    pub fn mirrored(&self) -> Arc {
        Arc { center: runs::mirrored(self.center), major: runs::mirrored(self.major), ratio: -self.ratio, ..*self }
    }

    /// Whether it runs counterclockwise. A ratio below 0 turns it round.
    pub fn is_counter_clockwise(&self) -> bool {
        (self.sweep > 0.0) == (self.ratio >= 0.0)
    }

    /// The lengths of both half axes.
    pub fn radii(&self) -> [f64; 2] {
        let major = self.major.x.hypot(self.major.y);
        [major, major * self.ratio.abs()]
    }

    /// The points where it turns back along x or y, as far as it has them.
    pub fn farthest(&self) -> impl Iterator<Item = Point2D> + '_ {
        let minor = self.minor();
        let (along_x, along_y) = (minor.x.atan2(self.major.x), minor.y.atan2(self.major.y));
        let within = |t: &f64| ((t - self.start) * self.sweep.signum()).rem_euclid(TAU) <= self.sweep.abs();
        [along_x, along_x + PI, along_y, along_y + PI].into_iter().filter(within).map(|t| self.at(t))
    }

    /// All numbers that a picture of it is made of.
    pub fn numbers(&self) -> [f64; 6] {
        let [major, minor] = self.radii();
        [self.center.x, self.center.y, major, minor, self.start + self.sweep, self.sweep]
    }

    fn minor(&self) -> Point2D {
        Point2D { x: -self.major.y * self.ratio, y: self.major.x * self.ratio }
    }

    /// As a cubic Bezier curve with the arc's tangents at both ends.
    fn flat(&self, start: Point2D, end: Point2D) -> Step {
        let length = 4.0 / 3.0 * (self.sweep / 4.0).tan();
        // The tangent at t is the point at t plus a quarter turn, seen from the centre.
        let tangent = |t: f64| way(self.center, self.at(t + PI / 2.0));
        Step::Curve([moved(start, tangent(self.start), length), moved(end, tangent(self.start + self.sweep), -length), end])
    }
}

/// A polyline's run; `None` if it has no vertices. Its closing segment has the last vertex's bulge; where it is open that bulge has no segment.
pub fn polyline(vertices: &[Vertex], is_closed: bool) -> Option<Run> {
    let first = vertices.first()?;
    let ends = vertices.iter().skip(1).chain(is_closed.then_some(first));
    let steps = vertices.iter().zip(ends).map(|(from, to)| segment(from.point, to.point, from.bulge.unwrap_or(0.0))).collect();
    Some(Run { start: first.point, steps, is_closed, instead: None })
}

/// A polyline's segment. The bulge is the tangent of a quarter of its angle, positive counterclockwise, so that 1 is a half circle on the right
/// of the way from the one point to the other.
fn segment(from: Point2D, to: Point2D, bulge: f64) -> Step {
    if bulge == 0.0 {
        return Step::Line(to);
    }
    let chord = way(from, to);
    let left = Point2D { x: -chord.y, y: chord.x };
    let square = bulge * bulge;
    if bulge.abs() < FLAT_BULGE {
        // The tangents at the ends are the chord, turned by half of the angle to either side. Its cosine is (1 - square) / (1 + square) and its
        // sine 2 bulge / (1 + square); the tangents' length by the chord's is (1 + square) / 3.
        let (along, across) = ((1.0 - square) / 3.0, 2.0 * bulge / 3.0);
        let tangent = |side: f64| moved(Point2D { x: chord.x * along, y: chord.y * along }, left, side * across);
        return Step::Curve([moved(from, tangent(-1.0), 1.0), moved(to, tangent(1.0), -1.0), to]);
    }
    let center = moved(moved(from, chord, 0.5), left, (1.0 - square) / (4.0 * bulge));
    let radius = chord.x.hypot(chord.y) * (1.0 + square) / (4.0 * bulge.abs());
    let ray = way(center, from);
    Step::Arc(Arc { center, major: Point2D { x: radius, y: 0.0 }, ratio: 1.0, start: ray.y.atan2(ray.x), sweep: 4.0 * bulge.atan() }, to)
}

/// A point and a direction from it, so many times.
fn moved(point: Point2D, direction: Point2D, times: f64) -> Point2D {
    Point2D { x: point.x + direction.x * times, y: point.y + direction.y * times }
}

/// The direction from one point to another.
fn way(from: Point2D, to: Point2D) -> Point2D {
    moved(to, from, -1.0)
}

#[cfg(test)]
#[path = "arcs_tests.rs"]
mod tests;
