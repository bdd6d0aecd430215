//! Outlines as runs of lines, curves and arcs, in the drawing's own coordinates: x to the right, y up.

use dwg_hatch::{HatchEdge, HatchPath, HatchPathSegments, Point2D};

use super::arcs::{self, Arc};
use super::splines;
use super::view::Extents;

/// The greatest coordinate or radius that is drawn. From here on a double has no digit left for a tenth of a unit, and what is computed from
/// such numbers may pass the greatest double.
pub const GREATEST: f64 = 1e15;

/// One step of a run, from where the step before it ends.
#[derive(Clone, Debug, PartialEq)]
pub enum Step {
    /// A straight line to a point.
    Line(Point2D),
    /// A cubic Bezier curve: its two inner control points, and where it ends.
    Curve([Point2D; 3]),
    /// A part of an ellipse or a circle, and where it ends.
    Arc(Arc, Point2D),
}

/// Steps without a gap between them.
#[derive(Clone, Debug, PartialEq)]
pub struct Run {
    /// Where the first step starts.
    pub start: Point2D,
    /// The steps.
    pub steps: Vec<Step>,
    /// Whether it ends where it starts.
    pub is_closed: bool,
    /// What stands in for a spline that cannot be drawn, and why; drawn dashed.
    pub instead: Option<&'static str>,
}

impl Step {
    /// Where the step ends.
    pub fn end(&self) -> Point2D {
        match self {
            Step::Line(end) | Step::Curve([_, _, end]) | Step::Arc(_, end) => *end,
        }
    }

    fn numbers(&self) -> Vec<f64> {
        match self {
            Step::Line(end) => vec![end.x, end.y],
            Step::Curve(points) => points.iter().flat_map(|point| [point.x, point.y]).collect(),
            Step::Arc(arc, end) => [&arc.numbers()[..], &[end.x, end.y]].concat(),
        }
    }
}

impl Run {
    /// A run of straight lines through points; `None` if there is no point.
    pub fn lines(points: impl IntoIterator<Item = Point2D>) -> Option<Run> {
        let mut points = points.into_iter();
        let start = points.next()?;
        Some(Run { start, steps: points.map(Step::Line).collect(), is_closed: false, instead: None })
    }

    /// Where it ends.
    pub fn end(&self) -> Point2D {
        self.steps.last().map_or(self.start, Step::end)
    }

    /// The same run from its end to its start.
    pub fn reversed(&self) -> Run {
        let ends: Vec<Point2D> = [self.start].into_iter().chain(self.steps.iter().map(Step::end)).collect();
        let steps = self.steps.iter().zip(ends).rev().map(|(step, start)| match step {
            Step::Line(_) => Step::Line(start),
            Step::Curve([first, second, _]) => Step::Curve([*second, *first, start]),
            Step::Arc(arc, _) => Step::Arc(arc.reversed(), start),
        });
        Run { start: self.end(), steps: steps.collect(), ..*self }
    }

    /// The same run with the sign of each x changed.
    pub fn mirrored(&self) -> Run {
        let steps = self.steps.iter().map(|step| match step {
            Step::Line(end) => Step::Line(mirrored(*end)),
            Step::Curve(points) => Step::Curve(points.map(mirrored)),
            Step::Arc(arc, end) => Step::Arc(arc.mirrored(), mirrored(*end)),
        });
        Run { start: mirrored(self.start), steps: steps.collect(), ..*self }
    }

    /// Whether every number of it is finite and none is above [`GREATEST`]. A NaN is not.
    pub fn is_drawable(&self) -> bool {
        let numbers = self.steps.iter().flat_map(Step::numbers);
        numbers.chain([self.start.x, self.start.y]).all(|number| number.abs() <= GREATEST)
    }

    /// Widens the extents so that the run lies within them. A curve lies within its control points.
    pub fn widen(&self, extents: &mut Extents) {
        extents.include(self.start);
        for step in &self.steps {
            match step {
                Step::Line(end) => extents.include(*end),
                Step::Curve(points) => points.iter().for_each(|point| extents.include(*point)),
                Step::Arc(arc, end) => [*end].into_iter().chain(arc.farthest()).for_each(|point| extents.include(point)),
            }
        }
    }
}

/// A point with the sign of its x changed.
pub fn mirrored(point: Point2D) -> Point2D {
    Point2D { x: -point.x, y: point.y }
}

/// A path's runs as one way round: an edge whose end is nearer to the edge before it than its start is taken from its end.
pub fn chained(runs: &[Run]) -> Vec<Run> {
    let mut chained: Vec<Run> = Vec::with_capacity(runs.len());
    for (at, run) in runs.iter().enumerate() {
        let backward = match (chained.last(), runs.get(at + 1)) {
            (Some(before), _) => distance(before.end(), run.end()) < distance(before.end(), run.start),
            (None, Some(next)) => {
                let to_next = |point: Point2D| distance(point, next.start).min(distance(point, next.end()));
                to_next(run.start) < to_next(run.end())
            }
            (None, None) => false,
        };
        chained.push(if backward { run.reversed() } else { run.clone() });
    }
    chained
}

fn distance(one: Point2D, other: Point2D) -> f64 {
    (one.x - other.x).hypot(one.y - other.y)
}

/// A path's runs: one of a polyline, one of each edge.
pub fn of_path(path: &HatchPath) -> Vec<Run> {
    match &path.segments {
        HatchPathSegments::Polyline { is_closed, vertices, .. } => arcs::polyline(vertices, *is_closed).into_iter().collect(),
        HatchPathSegments::Edges(edges) => edges.iter().filter_map(of_edge).collect(),
    }
}

fn of_edge(edge: &HatchEdge) -> Option<Run> {
    match edge {
        HatchEdge::Line { start, end } => Run::lines([*start, *end]),
        HatchEdge::Arc { center, radius, start_angle, end_angle, counter_clockwise } => {
            let major = Point2D { x: *radius, y: 0.0 };
            Some(Arc::of_edge(*center, major, 1.0, [*start_angle, *end_angle], *counter_clockwise).run())
        }
        HatchEdge::Ellipse { center, endpoint, axis_ratio, start_angle, end_angle, counter_clockwise } => {
            Some(Arc::of_edge(*center, *endpoint, *axis_ratio, [*start_angle, *end_angle], *counter_clockwise).run())
        }
        HatchEdge::Spline { degree, knots, control_points, fits, .. } => splines::run(*degree, knots, control_points, fits.as_ref()),
    }
}

#[cfg(test)]
mod tests {
    use super::*;

    fn line(end: [f64; 2]) -> Run {
        Run::lines([[0.0, 0.0], end].map(|[x, y]| Point2D { x, y })).expect("two points")
    }

    #[test]
    fn what_is_no_number_or_too_large_is_not_drawable() {
        assert!(line([GREATEST, -GREATEST]).is_drawable());
        for bad in [f64::NAN, f64::INFINITY, f64::NEG_INFINITY, 1.01 * GREATEST, -1e300] {
            assert!(!line([bad, 0.0]).is_drawable() && !line([0.0, bad]).is_drawable(), "{bad}");
        }
    }

    #[test]
    fn every_number_of_an_edge_counts() {
        let point = |x, y| Point2D { x, y };
        for at in 0..8 {
            let mut numbers = [1.0, 2.0, 3.0, 1.0, 0.5, 0.1, 1.9, 0.0];
            let drawable = |[x, y, major_x, major_y, axis_ratio, start_angle, end_angle, _]: [f64; 8]| {
                let (center, endpoint) = (point(x, y), point(major_x, major_y));
                let edge = HatchEdge::Ellipse { center, endpoint, axis_ratio, start_angle, end_angle, counter_clockwise: at % 2 == 0 };
                of_edge(&edge).is_some_and(|run| run.is_drawable())
            };
            assert!(drawable(numbers));
            numbers[at] = f64::NAN;
            assert_eq!(drawable(numbers), at == 7, "number {at}");
        }
    }

    /// A square's sides, all but the third as they should be; the first is turned round in its turn.
    #[test]
    fn edges_are_chained_whichever_way_they_run() {
        let corners = [[0.0, 0.0], [4.0, 0.0], [4.0, 4.0], [0.0, 4.0], [0.0, 0.0]].map(|[x, y]| Point2D { x, y });
        let sides: Vec<Run> = corners.windows(2).filter_map(|ends| Run::lines([ends[0], ends[1]])).collect();
        assert_eq!(chained(&sides), sides);
        for turned in 0..4 {
            let mut given = sides.clone();
            given[turned] = given[turned].reversed();
            assert_eq!(chained(&given), sides, "side {turned}");
        }
    }

    #[test]
    fn a_run_reversed_or_mirrored_twice_is_itself() {
        let point = |x, y| Point2D { x, y };
        let arc = Arc::of_edge(point(1.0, 1.0), point(2.0, 0.0), 0.5, [0.25, 1.25], false);
        let steps = vec![Step::Line(point(1.0, 2.0)), Step::Curve([point(2.0, 3.0), point(3.0, 3.0), arc.at(arc.start)]), Step::Arc(arc, arc.at(-1.25))];
        let run = Run { start: point(0.0, 0.0), steps, is_closed: false, instead: None };
        let back = run.reversed();
        assert_eq!((back.start, back.end()), (run.end(), run.start));
        let Step::Arc(turned, _) = &back.steps[0] else { panic!("no arc") };
        assert!(turned.is_counter_clockwise() != arc.is_counter_clockwise() && turned.at(turned.start) == run.end());
        assert_eq!(back.reversed(), run);

        let mirror = run.mirrored();
        assert_eq!((mirror.start, mirror.end()), (mirrored(run.start), mirrored(run.end())));
        let Step::Arc(turned, _) = &mirror.steps[2] else { panic!("no arc") };
        assert!([-0.25, -0.7, -1.25].iter().all(|t| turned.at(*t) == mirrored(arc.at(*t))));
        assert!(turned.is_counter_clockwise() != arc.is_counter_clockwise() && mirror.mirrored() == run);
    }

    #[test]
    fn a_path_without_points_has_no_runs() {
        let path = |segments| HatchPath { flags: 0, segments, num_boundary_handles: 0 };
        let polyline = HatchPathSegments::Polyline { has_bulge: false, is_closed: true, vertices: Vec::new() };
        assert!(of_path(&path(polyline)).is_empty());
        let spline = HatchEdge::Spline { degree: 3, is_rational: false, is_periodic: false, knots: vec![], control_points: vec![], fits: None };
        assert!(of_path(&path(HatchPathSegments::Edges(vec![spline]))).is_empty());
    }
}
