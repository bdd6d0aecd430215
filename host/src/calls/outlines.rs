//! The two lists of a hatch as a tree: paths with their vertices or edges, pattern lines and seed points.
//!
//! Names are the original Rust's. Every word and every number of the lists has its one place in the tree, and
//! [`TypedHatch::lists`](crate::TypedHatch::lists) gives the lists back. A double is an `f64`, or a `u64` where the lists hold a double's
//! 64 bits.

/// The value 1 in a path's flags: an outer boundary.
pub const FLAG_EXTERNAL: u32 = 1;
/// The value 2 in a path's flags: the path is a polyline and no list of edges.
pub const FLAG_POLYLINE: u32 = 2;
/// The value 4 in a path's flags: the path comes from a boundary object. A hatch with any such path has a pixel size.
pub const FLAG_DERIVED: u32 = 4;
/// The value 8 in a path's flags: the path is a text's box.
pub const FLAG_TEXTBOX: u32 = 8;
/// The value 16 in a path's flags: the outermost path.
pub const FLAG_OUTERMOST: u32 = 16;

/// A point, or a direction.
#[derive(Clone, Copy, Debug, Default, PartialEq, Eq)]
pub struct Point2D<Double = f64> {
    /// The first coordinate.
    pub x: Double,
    /// The second coordinate.
    pub y: Double,
}

/// A vertex of a polyline.
#[derive(Clone, Copy, Debug, PartialEq, Eq)]
pub struct Vertex<Double = f64> {
    /// Where it lies.
    pub point: Point2D<Double>,
    /// The bulge of the segment that starts here: the tangent of a quarter of its angle, positive counterclockwise. `None` where the polyline
    /// has no bulges.
    pub bulge: Option<Double>,
}

/// A control point of a spline.
#[derive(Clone, Copy, Debug, PartialEq, Eq)]
pub struct ControlPoint<Double = f64> {
    /// Where it lies.
    pub point: Point2D<Double>,
    /// Its weight; `None` where the spline is not rational.
    pub weight: Option<Double>,
}

/// The fit points of a spline, one at least, and its tangents.
#[derive(Clone, Debug, PartialEq, Eq)]
pub struct Fits<Double = f64> {
    /// The fit points.
    pub fit_points: Vec<Point2D<Double>>,
    /// The direction at the start.
    pub start_tangent: Point2D<Double>,
    /// The direction at the end.
    pub end_tangent: Point2D<Double>,
}

/// One edge of a path that is no polyline. Angles are radians.
#[derive(Clone, Debug, PartialEq, Eq)]
#[allow(missing_docs)]
pub enum HatchEdge<Double = f64> {
    /// Kind 1.
    Line { start: Point2D<Double>, end: Point2D<Double> },
    /// Kind 2.
    Arc { center: Point2D<Double>, radius: Double, start_angle: Double, end_angle: Double, counter_clockwise: bool },
    /// Kind 3. `endpoint` is the major axis's end as a direction from the centre, `axis_ratio` the minor axis by the major one.
    Ellipse {
        center: Point2D<Double>,
        endpoint: Point2D<Double>,
        axis_ratio: Double,
        start_angle: Double,
        end_angle: Double,
        counter_clockwise: bool,
    },
    /// Kind 4. There are no fits before release 5, nor where their count is 0.
    Spline {
        degree: u32,
        is_rational: bool,
        is_periodic: bool,
        knots: Vec<Double>,
        control_points: Vec<ControlPoint<Double>>,
        fits: Option<Fits<Double>>,
    },
}

/// What a path is made of.
#[derive(Clone, Debug, PartialEq, Eq)]
pub enum HatchPathSegments<Double = f64> {
    /// The flags have the value 2.
    Polyline {
        /// Whether each vertex has a bulge.
        has_bulge: bool,
        /// Whether a segment leads from the last vertex to the first.
        is_closed: bool,
        /// The vertices.
        vertices: Vec<Vertex<Double>>,
    },
    /// The flags do not have it.
    Edges(Vec<HatchEdge<Double>>),
}

/// One boundary path of a hatch.
#[derive(Clone, Debug, PartialEq, Eq)]
pub struct HatchPath<Double = f64> {
    /// The flags; [`FLAG_POLYLINE`] and its neighbours name their values.
    pub flags: u32,
    /// The polyline or the edges.
    pub segments: HatchPathSegments<Double>,
    /// How many boundary objects the path has. Their handles are not here.
    pub num_boundary_handles: u32,
}

impl<Double: Copy> HatchPath<Double> {
    /// The path's points as they are given, in reading order: vertices, line ends, centres, control points and fit points. What is a direction,
    /// an ellipse's `endpoint` and the tangents, is not among them; nor is where a bulge or an arc reaches beyond them.
    ///
    /// ```
    /// use dwg_hatch::{HatchEdge, HatchPath, HatchPathSegments, Point2D};
    /// let [start, end] = [Point2D { x: 1.5, y: 0.0 }, Point2D { x: 0.0, y: 2.5 }];
    /// let segments = HatchPathSegments::Edges(vec![HatchEdge::Line { start, end }]);
    /// assert_eq!(HatchPath { flags: 1, segments, num_boundary_handles: 0 }.points(), [start, end]);
    /// ```
    pub fn points(&self) -> Vec<Point2D<Double>> {
        match &self.segments {
            HatchPathSegments::Polyline { vertices, .. } => vertices.iter().map(|vertex| vertex.point).collect(),
            HatchPathSegments::Edges(edges) => {
                let mut points = Vec::with_capacity(2 * edges.len());
                edges.iter().for_each(|edge| edge.add_points(&mut points));
                points
            }
        }
    }
}

impl<Double: Copy> HatchEdge<Double> {
    /// The edge's points, as [`HatchPath::points`] has them.
    pub fn points(&self) -> Vec<Point2D<Double>> {
        let mut points = Vec::new();
        self.add_points(&mut points);
        points
    }

    fn add_points(&self, points: &mut Vec<Point2D<Double>>) {
        match self {
            HatchEdge::Line { start, end } => points.extend([*start, *end]),
            HatchEdge::Arc { center, .. } | HatchEdge::Ellipse { center, .. } => points.push(*center),
            HatchEdge::Spline { control_points, fits, .. } => {
                points.extend(control_points.iter().map(|control| control.point));
                points.extend(fits.iter().flat_map(|fits| &fits.fit_points));
            }
        }
    }
}

/// One line of a pattern.
#[derive(Clone, Debug, PartialEq, Eq)]
pub struct PatternLine<Double = f64> {
    /// The angle, in radians.
    pub angle: Double,
    /// A point of the first line.
    pub origin: Point2D<Double>,
    /// The step from one line to the next.
    pub offset: Point2D<Double>,
    /// The lengths of dashes, of gaps where negative; none for a line without gaps.
    pub dashes: Vec<Double>,
}
