//! Document 01's two lists, from the Rust's tree: words and numbers in reading order.

use crate::entities::Point2D;
use crate::entities::hatch::{Hatch, HatchEdge, HatchPath, HatchPathSegments};

#[derive(Default)]
pub struct Lists {
    pub words: Vec<u32>,
    pub numbers: Vec<f64>,
}

impl Lists {
    pub fn of(hatch: &Hatch) -> Lists {
        let mut lists = Lists::default();
        for path in &hatch.paths {
            lists.path(path);
        }
        for line in &hatch.pattern_lines {
            lists.numbers.push(line.angle);
            lists.points(&[line.origin, line.offset]);
            lists.count(&line.dashes);
            lists.numbers.extend(&line.dashes);
        }
        for (x, y) in &hatch.seed_points {
            lists.numbers.extend([x, y]);
        }
        lists
    }

    fn points(&mut self, points: &[Point2D]) {
        for point in points {
            self.numbers.extend([point.x, point.y]);
        }
    }

    fn count<T>(&mut self, items: &[T]) {
        self.words.push(items.len() as u32);
    }

    fn path(&mut self, path: &HatchPath) {
        self.words.push(path.flags);
        match &path.segments {
            HatchPathSegments::Polyline { has_bulge, is_closed, vertices } => {
                self.words.extend([u32::from(*has_bulge), u32::from(*is_closed)]);
                self.count(vertices);
                for (vertex, bulge) in vertices {
                    self.points(&[*vertex]);
                    self.numbers.extend(bulge); // an absent bulge has no entry
                }
            }
            HatchPathSegments::Edges(edges) => {
                self.count(edges);
                for edge in edges {
                    self.edge(edge);
                }
            }
        }
        self.words.push(path.num_boundary_handles);
    }

    fn edge(&mut self, edge: &HatchEdge) {
        match edge {
            HatchEdge::Line { start, end } => {
                self.words.push(1);
                self.points(&[*start, *end]);
            }
            HatchEdge::Arc { center, radius, start_angle, end_angle, counter_clockwise } => {
                self.words.extend([2, u32::from(*counter_clockwise)]);
                self.points(&[*center]);
                self.numbers.extend([radius, start_angle, end_angle]);
            }
            HatchEdge::Ellipse { center, endpoint, axis_ratio, start_angle, end_angle, counter_clockwise } => {
                self.words.extend([3, u32::from(*counter_clockwise)]);
                self.points(&[*center, *endpoint]);
                self.numbers.extend([axis_ratio, start_angle, end_angle]);
            }
            HatchEdge::Spline { .. } => self.spline(edge),
        }
    }

    /// Seven words at every release; weights stand with their control points; tangents only where fit points are.
    fn spline(&mut self, edge: &HatchEdge) {
        let HatchEdge::Spline {
            degree,
            is_rational,
            is_periodic,
            knots,
            control_points,
            weights,
            fit_points,
            start_tangent,
            end_tangent,
        } = edge
        else {
            return;
        };
        self.words.extend([4, *degree, u32::from(*is_rational), u32::from(*is_periodic)]);
        self.count(knots);
        self.count(control_points);
        self.count(fit_points);
        self.numbers.extend(knots);
        for (index, point) in control_points.iter().enumerate() {
            self.points(&[*point]);
            self.numbers.extend(weights.get(index));
        }
        self.points(fit_points);
        if !fit_points.is_empty() {
            self.points(&[*start_tangent, *end_tangent]);
        }
    }
}
