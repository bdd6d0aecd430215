//! From the two lists to the tree of outlines.rs, and back. What goes to the lists, and in which order, is said once for each way.

use super::hatch_record::{seed_part, Hatch};
use super::outlines::{ControlPoint, Fits, HatchEdge, HatchPath, HatchPathSegments, PatternLine, Point2D, Vertex, FLAG_POLYLINE};

/// What is not yet taken of the two lists. Whatever does not fit is `None`; nothing is taken twice.
pub(crate) struct Rest<'a, Double> {
    pub(crate) words: &'a [u32],
    pub(crate) numbers: &'a [Double],
}

/// How many paths, pattern lines and seed points there are, and how many numbers are used.
pub(crate) struct Counts {
    pub(crate) paths: usize,
    pub(crate) pattern_lines: usize,
    pub(crate) seed_points: usize,
    pub(crate) numbers_used: usize,
}

impl<Double> From<&Hatch<Double>> for Counts {
    fn from(hatch: &Hatch<Double>) -> Counts {
        let (paths, pattern_lines, seed_points) = (hatch.num_paths, hatch.num_pattern_lines, hatch.num_seed_points);
        Counts { paths, pattern_lines, seed_points, numbers_used: hatch.numbers_used }
    }
}

/// The paths, the pattern lines and the seed points of a hatch.
pub(crate) type Outlines<Double> = (Vec<HatchPath<Double>>, Vec<PatternLine<Double>>, Vec<Point2D<Double>>);

impl<Double: Copy> Rest<'_, Double> {
    /// All that a hatch's lists hold; `None` if they do not fit the counts.
    pub(crate) fn all(&self, counts: &Counts) -> Option<Outlines<Double>> {
        let part = seed_part(counts.numbers_used, counts.seed_points, self.numbers.len());
        let mut seeds = Rest { words: &[], numbers: self.numbers.get(part.clone())? };
        let seed_points = seeds.many(counts.seed_points, Rest::point)?;
        let mut rest = Rest { words: self.words, numbers: self.numbers.get(..self.numbers.len() - part.len())? };
        let paths = rest.many(counts.paths, Rest::path)?;
        let pattern_lines = rest.many(counts.pattern_lines, Rest::pattern_line)?;
        (rest.words.is_empty() && rest.numbers.is_empty()).then_some((paths, pattern_lines, seed_points))
    }

    /// So many items. Each takes an entry at least, so that a count above what the lists hold ends with them.
    pub(crate) fn many<T>(&mut self, count: usize, mut item: impl FnMut(&mut Self) -> Option<T>) -> Option<Vec<T>> {
        let mut items = Vec::with_capacity(count.min(self.words.len() + self.numbers.len()));
        for _ in 0..count {
            items.push(item(self)?);
        }
        Some(items)
    }

    pub(crate) fn path(&mut self) -> Option<HatchPath<Double>> {
        let flags = self.word()?;
        let segments = if flags & FLAG_POLYLINE != 0 { self.polyline()? } else { self.edges()? };
        Some(HatchPath { flags, segments, num_boundary_handles: self.word()? })
    }

    pub(crate) fn pattern_line(&mut self) -> Option<PatternLine<Double>> {
        let (angle, origin, offset) = (self.number()?, self.point()?, self.point()?);
        let count = self.count()?;
        Some(PatternLine { angle, origin, offset, dashes: self.many(count, Self::number)? })
    }

    pub(crate) fn point(&mut self) -> Option<Point2D<Double>> {
        Some(Point2D { x: self.number()?, y: self.number()? })
    }

    fn polyline(&mut self) -> Option<HatchPathSegments<Double>> {
        let (has_bulge, is_closed, count) = (self.switch()?, self.switch()?, self.count()?);
        let vertex = |rest: &mut Self| Some(Vertex { point: rest.point()?, bulge: rest.number_if(has_bulge)? });
        Some(HatchPathSegments::Polyline { has_bulge, is_closed, vertices: self.many(count, vertex)? })
    }

    fn edges(&mut self) -> Option<HatchPathSegments<Double>> {
        let count = self.count()?;
        Some(HatchPathSegments::Edges(self.many(count, Self::edge)?))
    }

    fn edge(&mut self) -> Option<HatchEdge<Double>> {
        Some(match self.word()? {
            1 => HatchEdge::Line { start: self.point()?, end: self.point()? },
            2 => HatchEdge::Arc {
                center: self.point()?,
                radius: self.number()?,
                start_angle: self.number()?,
                end_angle: self.number()?,
                counter_clockwise: self.switch()?,
            },
            3 => HatchEdge::Ellipse {
                center: self.point()?,
                endpoint: self.point()?,
                axis_ratio: self.number()?,
                start_angle: self.number()?,
                end_angle: self.number()?,
                counter_clockwise: self.switch()?,
            },
            4 => self.spline()?,
            _ => return None,
        })
    }

    fn spline(&mut self) -> Option<HatchEdge<Double>> {
        let (degree, is_rational, is_periodic) = (self.word()?, self.switch()?, self.switch()?);
        let [knots, controls, fits] = [self.count()?, self.count()?, self.count()?];
        let knots = self.many(knots, Self::number)?;
        let control = |rest: &mut Self| Some(ControlPoint { point: rest.point()?, weight: rest.number_if(is_rational)? });
        let control_points = self.many(controls, control)?;
        let fits = if fits == 0 { None } else { Some(self.fits(fits)?) };
        Some(HatchEdge::Spline { degree, is_rational, is_periodic, knots, control_points, fits })
    }

    fn fits(&mut self, count: usize) -> Option<Fits<Double>> {
        Some(Fits { fit_points: self.many(count, Self::point)?, start_tangent: self.point()?, end_tangent: self.point()? })
    }

    fn word(&mut self) -> Option<u32> {
        let (first, rest) = self.words.split_first()?;
        self.words = rest;
        Some(*first)
    }

    fn count(&mut self) -> Option<usize> {
        usize::try_from(self.word()?).ok()
    }

    /// A word that says yes or no.
    fn switch(&mut self) -> Option<bool> {
        match self.word()? {
            0 => Some(false),
            1 => Some(true),
            _ => None,
        }
    }

    fn number(&mut self) -> Option<Double> {
        let (first, rest) = self.numbers.split_first()?;
        self.numbers = rest;
        Some(*first)
    }

    /// A number that is there only if `present`; else it is no misfit that there is none.
    fn number_if(&mut self, present: bool) -> Option<Option<Double>> {
        if present { self.number().map(Some) } else { Some(None) }
    }
}

/// The lists as they are filled from a tree.
pub(crate) struct Filled<Double> {
    pub(crate) words: Vec<u32>,
    pub(crate) numbers: Vec<Double>,
}

impl<Double: Copy> Filled<Double> {
    pub(crate) fn path(&mut self, path: &HatchPath<Double>) {
        self.words.push(path.flags);
        match &path.segments {
            HatchPathSegments::Polyline { has_bulge, is_closed, vertices } => {
                self.words.extend([u32::from(*has_bulge), u32::from(*is_closed), length(vertices)]);
                vertices.iter().for_each(|vertex| self.point_and(vertex.point, vertex.bulge));
            }
            HatchPathSegments::Edges(edges) => {
                self.words.push(length(edges));
                edges.iter().for_each(|edge| self.edge(edge));
            }
        }
        self.words.push(path.num_boundary_handles);
    }

    pub(crate) fn pattern_line(&mut self, line: &PatternLine<Double>) {
        self.words.push(length(&line.dashes));
        self.numbers.push(line.angle);
        self.points(&[line.origin, line.offset]);
        self.numbers.extend(&line.dashes);
    }

    pub(crate) fn points(&mut self, points: &[Point2D<Double>]) {
        points.iter().for_each(|point| self.numbers.extend([point.x, point.y]));
    }

    fn edge(&mut self, edge: &HatchEdge<Double>) {
        match edge {
            HatchEdge::Line { start, end } => {
                self.words.push(1);
                self.points(&[*start, *end]);
            }
            HatchEdge::Arc { center, radius, start_angle, end_angle, counter_clockwise } => {
                self.words.extend([2, u32::from(*counter_clockwise)]);
                self.points(&[*center]);
                self.numbers.extend([radius, start_angle, end_angle]);
            }
            HatchEdge::Ellipse { center, endpoint, axis_ratio, start_angle, end_angle, counter_clockwise } => {
                self.words.extend([3, u32::from(*counter_clockwise)]);
                self.points(&[*center, *endpoint]);
                self.numbers.extend([axis_ratio, start_angle, end_angle]);
            }
            HatchEdge::Spline { degree, is_rational, is_periodic, knots, control_points, fits } => {
                let fitted = fits.as_ref().map_or(0, |fits| length(&fits.fit_points));
                self.words.extend([4, *degree, u32::from(*is_rational), u32::from(*is_periodic)]);
                self.words.extend([length(knots), length(control_points), fitted]);
                self.numbers.extend(knots);
                control_points.iter().for_each(|control| self.point_and(control.point, control.weight));
                fits.iter().for_each(|fits| self.fits(fits));
            }
        }
    }

    fn fits(&mut self, fits: &Fits<Double>) {
        self.points(&fits.fit_points);
        self.points(&[fits.start_tangent, fits.end_tangent]);
    }

    /// A point and, if it is there, the double behind it.
    fn point_and(&mut self, point: Point2D<Double>, more: Option<Double>) {
        self.points(&[point]);
        self.numbers.extend(more);
    }
}

/// A count as a word. Counts that were read came from words; a tree made by hand may pass them, and then its count is the greatest word,
/// which is above every cap.
fn length<T>(items: &[T]) -> u32 {
    u32::try_from(items.len()).unwrap_or(u32::MAX)
}
