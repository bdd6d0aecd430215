//! The area and the length of closed paths. They are not in the body: the host computes them, in doubles, and nothing of it is proved.
//!
//! Every point is seen from the path's own first one, so that far from the origin no digit is lost: of coordinates that lie within a factor of 2
//! the difference is exact.

use dwg_hatch::{HatchEdge, HatchPath, HatchPathSegments, Point2D};

use crate::commands::angles::Swept;

/// Edges close if no gap between them is above this part of the path's length: angles may have been computed in single precision.
const GAP: f64 = 1e-6;

/// Below this bulge the area beside the chord is computed by its series, since the closed form loses digits.
const SMALL_BULGE: f64 = 0.25;

/// What a closed path measures, in the drawing's units.
#[derive(Clone, Copy, Debug, PartialEq)]
pub struct Measures {
    /// The area that it encloses, 0 or more. Where it crosses itself, parts that it goes around the other way count as negative.
    pub area: f64,
    /// Its length.
    pub length: f64,
}

/// Segments that follow one another: corners, each with the bulge of the segment from it to the next, and the last corner. Seen from the path's
/// first point.
struct Way {
    corners: Vec<(Point2D, f64)>,
    end: Point2D,
}

/// What a path measures. `None` if it is open, if an edge is an ellipse or a spline, if its edges do not close, or if it is not finite.
pub fn measures(path: &HatchPath<u64>) -> Option<Measures> {
    let first = double(first(path)?);
    let ways = match &path.segments {
        HatchPathSegments::Polyline { is_closed, vertices, .. } => {
            let bulge = |bits: Option<u64>| bits.map_or(0.0, f64::from_bits);
            let mut corners: Vec<(Point2D, f64)> = vertices.iter().map(|vertex| (seen(&vertex.point, first), bulge(vertex.bulge))).collect();
            let (last, closing) = corners.last_mut()?;
            if !is_closed {
                // An open polyline that ends where it starts is closed, and its last bulge has no segment.
                *closing = 0.0;
                (last.x == 0.0 && last.y == 0.0).then_some(())?;
            }
            vec![Way { end: corners[0].0, corners }]
        }
        HatchPathSegments::Edges(edges) => chained(edges.iter().map(|edge| way(edge, first)).collect::<Option<_>>()?),
    };
    let total = total(&ways);
    let gaps = ways.iter().zip(ways.iter().cycle().skip(1)).map(|(one, next)| distance(one.end, next.corners[0].0));
    // A NaN is in no range.
    let is_closed = gaps.into_iter().all(|gap| (0.0..=GAP * total.length).contains(&gap));
    (is_closed && total.area.is_finite() && total.length.is_finite()).then_some(total)
}

/// The first point of a path. Of one that starts with an ellipse or a spline none is needed, since it is not measured.
fn first(path: &HatchPath<u64>) -> Option<&Point2D<u64>> {
    match &path.segments {
        HatchPathSegments::Polyline { vertices, .. } => vertices.first().map(|vertex| &vertex.point),
        HatchPathSegments::Edges(edges) => match edges.first()? {
            HatchEdge::Line { start: point, .. } | HatchEdge::Arc { center: point, .. } => Some(point),
            HatchEdge::Ellipse { .. } | HatchEdge::Spline { .. } => None,
        },
    }
}

/// The area and the length of all segments; a gap is no segment, but the area is closed across it.
fn total(ways: &[Way]) -> Measures {
    let (mut area, mut length) = (0.0, 0.0);
    let ends = ways.iter().flat_map(|way| way.corners.iter().skip(1).map(|corner| corner.0).chain([way.end]));
    for ((from, bulge), to) in ways.iter().flat_map(|way| &way.corners).zip(ends) {
        let chord = distance(*from, to);
        area += cross(*from, to) / 2.0 + chord * chord * beside(*bulge);
        length += chord * stretch(*bulge);
    }
    let gaps = ways.iter().zip(ways.iter().cycle().skip(1)).map(|(one, next)| cross(one.end, next.corners[0].0) / 2.0);
    Measures { area: (area + gaps.sum::<f64>()).abs(), length }
}

/// The area between an arc and its chord by the square of the chord, positive where the arc lies on the right of the way. With `b` the bulge it is
/// ((1 + b²)² atan b - b (1 - b²)) / 8b²; as a series b/3 + b³/15 - b⁵/105 + ..., whose part with b^(2k-1) has the divisor (2k-3)(2k-1)(2k+1).
fn beside(bulge: f64) -> f64 {
    if bulge == 0.0 {
        return 0.0;
    }
    let square = bulge * bulge;
    if bulge.abs() > SMALL_BULGE {
        let sum = 1.0 + square;
        return (sum * sum * bulge.atan() - bulge * (1.0 - square)) / (8.0 * square);
    }
    let (mut power, mut sum) = (bulge, 0.0);
    for k in 1..16 {
        let (odd, sign) = (f64::from(2 * k), if k % 2 == 0 { 1.0 } else { -1.0 });
        sum += sign * power / ((odd - 3.0) * (odd - 1.0) * (odd + 1.0));
        power *= square;
    }
    sum
}

/// An arc's length by its chord's.
fn stretch(bulge: f64) -> f64 {
    if bulge == 0.0 { 1.0 } else { (1.0 + bulge * bulge) * bulge.atan() / bulge }
}

/// An edge as segments: a line as one, an arc as its two halves, whose bulges are 1 at most. `None` of an ellipse or a spline.
fn way(edge: &HatchEdge<u64>, first: Point2D) -> Option<Way> {
    match edge {
        HatchEdge::Line { start, end } => Some(Way { corners: vec![(seen(start, first), 0.0)], end: seen(end, first) }),
        HatchEdge::Arc { center, radius, start_angle, end_angle, counter_clockwise } => {
            let [radius, start, end] = [*radius, *start_angle, *end_angle].map(f64::from_bits);
            let Swept { start, sweep } = Swept::of_edge([start, end], *counter_clockwise);
            let center = seen(center, first);
            let at = |part: f64| {
                let (sin, cos) = (start + sweep * part).sin_cos();
                Point2D { x: center.x + radius * cos, y: center.y + radius * sin }
            };
            let bulge = (sweep / 8.0).tan();
            Some(Way { corners: vec![(at(0.0), bulge), (at(0.5), bulge)], end: at(1.0) })
        }
        HatchEdge::Ellipse { .. } | HatchEdge::Spline { .. } => None,
    }
}

/// Edges as one way round: one whose end is nearer to the edge before it than its start is taken from its end.
fn chained(edges: Vec<Way>) -> Vec<Way> {
    let mut chained: Vec<Way> = Vec::with_capacity(edges.len());
    let mut edges = edges.into_iter().peekable();
    while let Some(edge) = edges.next() {
        let start = edge.corners[0].0;
        let backward = match (chained.last(), edges.peek()) {
            (Some(before), _) => distance(before.end, edge.end) < distance(before.end, start),
            (None, Some(next)) => {
                let to_next = |point: Point2D| distance(point, next.corners[0].0).min(distance(point, next.end));
                to_next(start) < to_next(edge.end)
            }
            (None, None) => false,
        };
        chained.push(if backward { edge.reversed() } else { edge });
    }
    chained
}

impl Way {
    /// The same segments from their end to their start.
    fn reversed(&self) -> Way {
        let mut ends = self.corners.iter().skip(1).map(|corner| corner.0).chain([self.end]).rev();
        let corners = self.corners.iter().rev().map_while(|(_, bulge)| Some((ends.next()?, -bulge))).collect();
        Way { corners, end: self.corners[0].0 }
    }
}

fn double(point: &Point2D<u64>) -> Point2D {
    Point2D { x: f64::from_bits(point.x), y: f64::from_bits(point.y) }
}

/// A point as it is seen from another.
fn seen(point: &Point2D<u64>, from: Point2D) -> Point2D {
    let point = double(point);
    Point2D { x: point.x - from.x, y: point.y - from.y }
}

fn cross(one: Point2D, other: Point2D) -> f64 {
    one.x * other.y - one.y * other.x
}

fn distance(one: Point2D, other: Point2D) -> f64 {
    (one.x - other.x).hypot(one.y - other.y)
}

#[cfg(test)]
#[path = "measures_tests.rs"]
mod tests;
