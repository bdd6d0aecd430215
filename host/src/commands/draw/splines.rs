//! Splines: by de Boor's algorithm, exactly as Bezier curves where the degree is 3 and there are no weights.

use dwg_hatch::{ControlPoint, Fits, Point2D};

use super::runs::{Run, Step};

/// The greatest degree that is drawn. Drawings have 2 to 5.
const GREATEST_DEGREE: usize = 25;

/// A spline that can be drawn: so many knots as control points and the degree and one, rising, and weights above 0.
struct Spline<'a> {
    degree: usize,
    knots: &'a [f64],
    /// Each control point as x and y times its weight, and the weight.
    points: Vec<[f64; 3]>,
}

/// A spline's run, or its control points or fit points joined by lines where it cannot be drawn; `None` if it has neither.
pub fn run(degree: u32, knots: &[f64], control_points: &[ControlPoint], fits: Option<&Fits>) -> Option<Run> {
    if control_points.is_empty() {
        let instead = Some("fit points of a spline without control points");
        return Run::lines(fits?.fit_points.iter().copied()).map(|run| Run { instead, ..run });
    }
    match why_not(degree as usize, knots, control_points) {
        Some(instead) => {
            let run = Run::lines(control_points.iter().map(|control| control.point))?;
            Some(Run { instead: Some(instead), ..run })
        }
        None => {
            let points = control_points.iter().map(homogeneous).collect();
            let spline = Spline { degree: degree as usize, knots, points };
            let is_rational = control_points.iter().any(|control| control.weight.is_some());
            if spline.degree == 3 && !is_rational { spline.curves() } else { spline.lines() }
        }
    }
}

/// Why a spline with control points cannot be drawn.
fn why_not(degree: usize, knots: &[f64], control_points: &[ControlPoint]) -> Option<&'static str> {
    let count = control_points.len();
    if degree == 0 || degree > GREATEST_DEGREE {
        return Some("control points of a spline whose degree is not 1 to 25");
    }
    if count <= degree || knots.len() != count + degree + 1 {
        return Some("control points of a spline whose knots are not as many as its control points, its degree and one");
    }
    // A NaN fails both comparisons.
    let rising = knots.windows(2).all(|pair| pair[0] <= pair[1]);
    if !rising || !knots.iter().all(|knot| knot.is_finite()) || knots[degree] == knots[count] {
        return Some("control points of a spline whose knots do not rise");
    }
    let weighted = |control: &ControlPoint| control.weight.is_none_or(|weight| weight > 0.0 && weight.is_finite());
    if !control_points.iter().all(weighted) {
        return Some("control points of a spline whose weights are not all above 0");
    }
    None
}

fn homogeneous(control: &ControlPoint) -> [f64; 3] {
    let weight = control.weight.unwrap_or(1.0);
    [control.point.x * weight, control.point.y * weight, weight]
}

impl Spline<'_> {
    /// The spans between knots that differ, by the number of the knot before each.
    fn spans(&self) -> Vec<usize> {
        (self.degree..self.points.len()).filter(|at| self.knots[*at] < self.knots[at + 1]).collect()
    }

    /// De Boor's algorithm over a span with a value of its own for each level (the polar form): the spline's point where all are the same.
    fn point(&self, span: usize, values: &[f64]) -> Point2D {
        let first = span - self.degree;
        let mut row = self.points[first..=span].to_vec();
        for (level, value) in values.iter().enumerate() {
            for at in (level + 1..=self.degree).rev() {
                let (low, high) = (self.knots[first + at], self.knots[span + at - level]);
                let part = (value - low) / (high - low);
                let [before, after] = [row[at - 1], row[at]];
                row[at] = std::array::from_fn(|axis| before[axis] * (1.0 - part) + after[axis] * part);
            }
        }
        let [x, y, weight] = row[self.degree];
        Point2D { x: x / weight, y: y / weight }
    }

    /// Degree 3 without weights: each span is a Bezier curve, whose control points are the polar form's at its ends.
    fn curves(&self) -> Option<Run> {
        let curve = |span: usize| {
            let [a, b] = [self.knots[span], self.knots[span + 1]];
            [[a, a, a], [a, a, b], [a, b, b], [b, b, b]].map(|values| self.point(span, &values))
        };
        let curves: Vec<[Point2D; 4]> = self.spans().into_iter().map(curve).collect();
        let start = curves.first()?[0];
        let steps = curves.iter().map(|[_, first, second, end]| Step::Curve([*first, *second, *end])).collect();
        Some(Run { start, steps, is_closed: false, instead: None })
    }

    /// Any other: lines through points of it, 32 a span, and 8 at least where the spans are many.
    fn lines(&self) -> Option<Run> {
        let spans = self.spans();
        let parts = if self.degree == 1 { 1 } else { (1024 / spans.len().max(1)).clamp(8, 32) };
        let along = |span: usize, part: usize| {
            let [a, b] = [self.knots[span], self.knots[span + 1]];
            let value = if part == parts { b } else { a + (b - a) * (part as f64 / parts as f64) };
            self.point(span, &vec![value; self.degree])
        };
        let start = spans.first().map(|span| along(*span, 0));
        Run::lines(start.into_iter().chain(spans.iter().flat_map(|span| (1..=parts).map(move |part| along(*span, part)))))
    }
}

#[cfg(test)]
mod tests {
    use super::*;

    fn controls(points: &[(f64, f64)], weights: Option<&[f64]>) -> Vec<ControlPoint> {
        let control = |(at, (x, y)): (usize, &(f64, f64))| ControlPoint { point: Point2D { x: *x, y: *y }, weight: weights.map(|w| w[at]) };
        points.iter().enumerate().map(control).collect()
    }

    fn near(given: Point2D, x: f64, y: f64) {
        assert!((given.x - x).abs() < 1e-12 && (given.y - y).abs() < 1e-12, "{given:?} is not ({x}, {y})");
    }

    #[test]
    fn one_span_of_degree_3_is_its_own_bezier_curve() {
        let points = controls(&[(0.0, 0.0), (1.0, 2.0), (3.0, 2.0), (4.0, 0.0)], None);
        let run = run(3, &[0.0, 0.0, 0.0, 0.0, 1.0, 1.0, 1.0, 1.0], &points, None).expect("a run");
        assert_eq!((run.start, run.instead), (points[0].point, None));
        assert_eq!(run.steps, [Step::Curve([points[1].point, points[2].point, points[3].point])]);
    }

    /// The uniform cubic B-spline: its points at knots are (before + 4 here + after) / 6.
    #[test]
    fn a_uniform_spline_passes_its_known_points() {
        let points = controls(&[(0.0, 0.0), (6.0, 0.0), (6.0, 6.0), (0.0, 6.0), (0.0, 12.0)], None);
        let knots: Vec<f64> = (0..9).map(f64::from).collect();
        let run = run(3, &knots, &points, None).expect("a run");
        near(run.start, 5.0, 1.0);
        let [Step::Curve(first), Step::Curve(second)] = &run.steps[..] else { panic!("two curves") };
        near(first[2], 5.0, 5.0);
        near(second[2], 1.0, 7.0);
        // The inner control points part the way between control points in thirds.
        near(first[0], 6.0, 2.0);
        near(first[1], 6.0, 4.0);
    }

    /// A quarter circle as a rational spline of degree 2: every point is at distance 1 from the centre.
    #[test]
    fn a_rational_spline_is_a_circle() {
        let points = controls(&[(1.0, 0.0), (1.0, 1.0), (0.0, 1.0)], Some(&[1.0, 0.5f64.sqrt(), 1.0]));
        let run = run(2, &[0.0, 0.0, 0.0, 1.0, 1.0, 1.0], &points, None).expect("a run");
        assert_eq!(run.steps.len(), 32);
        assert!(run.steps.iter().all(|step| (step.end().x.hypot(step.end().y) - 1.0).abs() < 1e-12));
        near(run.start, 1.0, 0.0);
        near(run.steps[31].end(), 0.0, 1.0);
        let unweighted = controls(&[(1.0, 0.0), (1.0, 1.0), (0.0, 1.0)], None);
        let plain = super::run(2, &[0.0, 0.0, 0.0, 1.0, 1.0, 1.0], &unweighted, None).expect("a run");
        near(plain.steps[15].end(), 0.75, 0.75);
    }

    #[test]
    fn degree_1_is_the_control_points_themselves() {
        let points = controls(&[(0.0, 0.0), (5.0, 1.0), (2.0, 7.0)], None);
        let run = run(1, &[0.0, 0.0, 0.5, 1.0, 1.0], &points, None).expect("a run");
        assert_eq!(run, Run::lines(points.iter().map(|control| control.point)).expect("a run"));
    }

    #[test]
    fn what_cannot_be_drawn_is_its_control_points() {
        let plain = [(0.0, 0.0), (1.0, 2.0), (3.0, 2.0), (4.0, 0.0)];
        let knots = [0.0, 0.0, 0.0, 0.0, 1.0, 1.0, 1.0, 1.0];
        let with = |at: usize, knot: f64| {
            let mut knots = knots.to_vec();
            knots[at] = knot;
            knots
        };
        let bad_knots = [vec![], knots[1..].to_vec(), with(3, 2.0), with(0, f64::NAN), with(7, f64::INFINITY), vec![0.5; 8]];
        for knots in bad_knots {
            let run = run(3, &knots, &controls(&plain, None), None).expect("a run");
            assert!(run.instead.is_some_and(|instead| instead.contains("knots")) && run.steps.len() == 3, "{knots:?}");
        }
        for degree in [0, 4, 26, u32::MAX] {
            assert!(run(degree, &knots, &controls(&plain, None), None).expect("a run").instead.is_some(), "{degree}");
        }
        for weight in [0.0, -1.0, f64::NAN, f64::INFINITY] {
            let run = run(3, &knots, &controls(&plain, Some(&[1.0, weight, 1.0, 1.0])), None).expect("a run");
            assert!(run.instead.is_some_and(|instead| instead.contains("weights")), "{weight}");
        }
    }

    #[test]
    fn fit_points_alone_are_joined_by_lines() {
        let zero = Point2D { x: 0.0, y: 0.0 };
        let fits = Fits { fit_points: vec![zero, Point2D { x: 1.0, y: 1.0 }], start_tangent: zero, end_tangent: zero };
        let run = run(3, &[], &[], Some(&fits)).expect("a run");
        assert!(run.instead.is_some_and(|instead| instead.starts_with("fit points")) && run.steps.len() == 1);
        assert_eq!(super::run(3, &[], &[], None), None);
    }
}
