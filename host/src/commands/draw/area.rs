//! The area of a hatch in the picture: its paths as closed rings of points, in pixels, and where parallel lines lie inside them.

use dwg_hatch::Point2D;

use super::runs::{self, Run, Step};
use super::view::View;

/// How far the points' chords may lie from their curve, in pixels.
const OFF: f64 = 0.05;

/// The most points of an arc, and the points of a Bezier curve. A whole circle with a radius above 170,000 pixels is off by more than `OFF`.
const MOST_POINTS: f64 = 4096.0;
const CURVE_POINTS: u32 = 24;

/// Parallel lines in the picture: those of the points whose product with `across` is `base` and so many whole times `step`. The line's number
/// is how many times.
#[derive(Clone, Copy, Debug)]
pub struct Stripes {
    /// The lines' direction, of length 1.
    pub along: Point2D,
    /// The direction from line to line, of length 1 and at right angles to theirs.
    pub across: Point2D,
    /// Where line 0 lies.
    pub base: f64,
    /// How far it is to the next line; not 0.
    pub step: f64,
}

/// A part of a line that lies inside an area: the line's number, and the products with `along` at both ends.
#[derive(Clone, Copy, Debug, PartialEq)]
pub struct Inside {
    /// The line's number, a whole one.
    pub line: f64,
    /// Where it enters.
    pub from: f64,
    /// Where it leaves.
    pub to: f64,
}

/// The product of two directions, or of a direction and a point.
pub fn product(one: Point2D, other: Point2D) -> f64 {
    one.x * other.x + one.y * other.y
}

impl Stripes {
    /// The number of the line through a point, with its fraction.
    pub fn number(&self, point: Point2D) -> f64 {
        (product(self.across, point) - self.base) / self.step
    }

    /// The point of a line whose product with `along` is given.
    pub fn point(&self, line: f64, along: f64) -> Point2D {
        let across = self.base + line * self.step;
        Point2D { x: self.along.x * along + self.across.x * across, y: self.along.y * along + self.across.y * across }
    }
}

/// Rings of points.
#[derive(Clone, Debug, Default)]
pub struct Area(Vec<Vec<Point2D>>);

impl Area {
    /// Adds a path as one ring, whose runs are joined where there is a gap between them.
    pub fn add(&mut self, runs: &[Run], view: &View) {
        let mut ring = Vec::new();
        for run in runs::chained(runs) {
            ring.push(view.place(run.start));
            run.steps.iter().for_each(|step| flattened(step, view, &mut ring));
        }
        self.0.push(ring);
    }

    /// How many sides all rings have.
    pub fn sides(&self) -> usize {
        self.0.iter().map(Vec::len).sum()
    }

    /// The parts of the lines numbered from the first to the last that lie inside, by the even-odd rule, line by line. `None` if they are more
    /// than so many.
    pub fn inside(&self, stripes: &Stripes, [first, last]: [f64; 2], most: usize) -> Option<Vec<Inside>> {
        let mut crossings: Vec<(f64, f64)> = Vec::new();
        for ring in &self.0 {
            let ends = ring.iter().skip(1).chain(ring.first());
            for (from, to) in ring.iter().zip(ends) {
                cross(stripes, [*from, *to], [first, last], 2 * most, &mut crossings)?;
            }
        }
        crossings.sort_by(|one, other| one.0.total_cmp(&other.0).then(one.1.total_cmp(&other.1)));
        // A ring crosses each line an even number of times.
        Some(crossings.chunks_exact(2).map(|pair| Inside { line: pair[0].0, from: pair[0].1, to: pair[1].1 }).collect())
    }
}

/// Adds where a side of a ring crosses lines, as their numbers and the products with `along`; of its ends the one with the lower number counts,
/// so that a line through a corner is crossed once by both sides. `None` if the crossings become more than so many.
fn cross(stripes: &Stripes, [from, to]: [Point2D; 2], [first, last]: [f64; 2], most: usize, crossings: &mut Vec<(f64, f64)>) -> Option<()> {
    let [start, end] = [from, to].map(|point| stripes.number(point));
    let low = start.min(end).ceil().max(first);
    let high = (start.max(end).ceil() - 1.0).min(last);
    if low > high {
        return Some(());
    }
    let count = high - low + 1.0;
    if count + crossings.len() as f64 > most as f64 {
        return None;
    }
    let [from, to] = [from, to].map(|point| product(stripes.along, point));
    // By their count, since a number far from 0 may be the same with 1 added.
    crossings.extend((0..count as usize).map(|at| low + at as f64).map(|line| (line, from + (to - from) * ((line - start) / (end - start)))));
    Some(())
}

/// Adds the points of a step after its start.
fn flattened(step: &Step, view: &View, ring: &mut Vec<Point2D>) {
    match step {
        Step::Line(end) => ring.push(view.place(*end)),
        Step::Curve([first, second, end]) => {
            let Some(start) = ring.last().copied() else { return };
            let points = [start, view.place(*first), view.place(*second), view.place(*end)];
            ring.extend((1..=CURVE_POINTS).map(|at| bezier(&points, f64::from(at) / f64::from(CURVE_POINTS))));
        }
        Step::Arc(arc, end) => {
            let radius = arc.radii()[0].max(arc.radii()[1]) * view.scale;
            let angle = 2.0 * (1.0 - OFF / radius.max(OFF)).acos();
            let parts = (arc.sweep.abs() / angle).ceil().clamp(1.0, MOST_POINTS);
            ring.extend((1..parts as u32).map(|part| view.place(arc.at(arc.start + arc.sweep * (f64::from(part) / parts)))));
            ring.push(view.place(*end));
        }
    }
}

/// The point of a cubic Bezier curve at `t`.
fn bezier(points: &[Point2D; 4], t: f64) -> Point2D {
    let s = 1.0 - t;
    let weights = [s * s * s, 3.0 * s * s * t, 3.0 * s * t * t, t * t * t];
    let along = |axis: fn(&Point2D) -> f64| points.iter().zip(weights).map(|(point, weight)| axis(point) * weight).sum();
    Point2D { x: along(|point| point.x), y: along(|point| point.y) }
}

#[cfg(test)]
mod tests {
    use super::*;
    use crate::commands::draw::arcs::Arc;
    use crate::commands::draw::view::Extents;

    fn point(x: f64, y: f64) -> Point2D {
        Point2D { x, y }
    }

    /// Ten units wide and high, ten pixels each, as rings that are given in pixels from the lower left corner.
    fn area(rings: &[&[(f64, f64)]]) -> Area {
        let view = View::new(Extents::parse("0,0,100,100").expect("a view"), 100);
        let mut area = Area::default();
        for ring in rings {
            area.add(&[Run::lines(ring.iter().map(|(x, y)| point(*x, *y))).expect("points")], &view);
        }
        area
    }

    /// Lines from left to right, ten pixels apart; line 0 is the picture's upper edge.
    const ACROSS: Stripes = Stripes { along: Point2D { x: 1.0, y: 0.0 }, across: Point2D { x: 0.0, y: 1.0 }, base: 0.0, step: 10.0 };

    const SQUARE: [(f64, f64); 4] = [(15.0, 15.0), (85.0, 15.0), (85.0, 85.0), (15.0, 85.0)];

    #[test]
    fn lines_in_a_square() {
        let inside = area(&[&SQUARE]).inside(&ACROSS, [-100.0, 100.0], 100).expect("few lines");
        assert_eq!(inside, [2, 3, 4, 5, 6, 7, 8].map(|line| Inside { line: f64::from(line), from: 15.0, to: 85.0 }));
        let two = area(&[&SQUARE]).inside(&ACROSS, [4.0, 5.0], 100).expect("few lines");
        assert_eq!(two, inside[2..4]);
    }

    #[test]
    fn an_island_is_left_out() {
        let island = [(35.0, 35.0), (65.0, 35.0), (65.0, 65.0), (35.0, 65.0)];
        let inside = area(&[&SQUARE, &island]).inside(&ACROSS, [5.0, 5.0], 100).expect("few lines");
        assert_eq!(inside, [Inside { line: 5.0, from: 15.0, to: 35.0 }, Inside { line: 5.0, from: 65.0, to: 85.0 }]);
    }

    /// A line through a corner, and one along a side, are inside on one side of it alone.
    #[test]
    fn corners_on_a_line_are_counted_once() {
        let triangle = area(&[&[(10.0, 50.0), (50.0, 10.0), (90.0, 50.0), (50.0, 90.0)]]);
        let inside = triangle.inside(&ACROSS, [5.0, 5.0], 100).expect("few lines");
        assert_eq!(inside, [Inside { line: 5.0, from: 10.0, to: 90.0 }]);
        let square = area(&[&[(10.0, 20.0), (90.0, 20.0), (90.0, 80.0), (10.0, 80.0)]]).inside(&ACROSS, [0.0, 10.0], 100).expect("few lines");
        assert_eq!(square.iter().map(|part| part.line).collect::<Vec<_>>(), [2.0, 3.0, 4.0, 5.0, 6.0, 7.0]);
    }

    #[test]
    fn too_many_lines_are_none() {
        let near = Stripes { step: 1e-3, ..ACROSS };
        assert!(area(&[&SQUARE]).inside(&near, [-1e9, 1e9], 69_999).is_none());
        assert_eq!(area(&[&SQUARE]).inside(&near, [-1e9, 1e9], 70_001).expect("enough").len(), 70_000);
        assert!(area(&[&SQUARE]).inside(&Stripes { step: 1e-300, ..ACROSS }, [f64::MIN, f64::MAX], 1_000_000).is_none());
    }

    #[test]
    fn a_circle_is_as_wide_as_it_is() {
        let view = View::new(Extents::parse("0,0,10,10").expect("a view"), 1000);
        let mut area = Area::default();
        area.add(&[Arc::of_edge(point(5.0, 5.0), point(3.0, 0.0), 1.0, [0.0, std::f64::consts::TAU], true).run()], &view);
        let inside = area.inside(&Stripes { base: 500.0, ..ACROSS }, [0.0, 0.0], 10).expect("one line");
        assert!(inside.len() == 1 && (inside[0].from - 200.0).abs() < 0.1 && (inside[0].to - 800.0).abs() < 0.1, "{inside:?}");
    }
}
