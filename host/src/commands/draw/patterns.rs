//! Pattern lines: each line of a hatch's pattern is a family of parallel lines, drawn as far as they lie in the hatch's area and in the view.
//!
//! A pattern line stands in the body as it is drawn, turned and scaled already: line k of its family goes through `origin` and k times `offset`,
//! in the direction of `angle`, and its dashes start there.

use dwg_hatch::{PatternLine, Point2D};

use super::area::{product, Area, Inside, Stripes};
use super::runs::GREATEST;
use super::view::View;

/// Offsets that lead along the lines, to this part of their length, give one line alone.
const ALONG: f64 = 1e-9;

/// Where dashes and gaps together are shorter than this, in pixels, a line is drawn without gaps: they could not be seen.
const LEAST_PERIOD: f64 = 1.0;

/// Where a line's dashes start farther away than this, in pixels, it is drawn without gaps: a double has no digits left for where they lie.
const FARTHEST_START: f64 = 1e12;

/// So often at most a family is looked at along a side of an outline. A hatch may have 4096 families and millions of sides, for which no one waits.
const MOST_LOOKS: usize = 100_000_000;

/// A pattern line's family in the picture.
struct Family {
    stripes: Stripes,
    /// Whether line 0 is the only one.
    is_single: bool,
    /// Where the dashes of line 0 start along it, and how far those of the next line are from there.
    start: f64,
    shift: f64,
    /// Dashes, and gaps as negative lengths, in pixels; none of a line without gaps.
    dashes: Vec<f64>,
    /// The length of all dashes and gaps.
    period: f64,
}

/// Whether a pattern line can be drawn.
pub fn is_drawable(line: &PatternLine) -> bool {
    let PatternLine { angle, origin, offset, dashes } = line;
    [*angle, origin.x, origin.y, offset.x, offset.y].iter().chain(dashes).all(|number| number.abs() <= GREATEST)
}

/// The strokes of pattern lines in an area, in pixels. `None` if they, or the lines' parts in the area, are more than so many.
pub fn strokes<'a>(lines: impl Iterator<Item = &'a PatternLine>, is_mirrored: bool, area: &Area, view: &View, most: usize) -> Option<Vec<[Point2D; 2]>> {
    let families: Vec<Family> = lines.filter_map(|line| Family::new(line, is_mirrored, view)).collect();
    if families.len().saturating_mul(area.sides()) > MOST_LOOKS {
        return None;
    }
    let (mut strokes, mut parts) = (Vec::new(), 0);
    for family in families {
        parts += family.draw(area, view, most - parts, most, &mut strokes)?;
    }
    Some(strokes)
}

impl Family {
    /// A pattern line's family; `None` if it has gaps alone. Seen from behind, the sign of each x is changed.
    fn new(line: &PatternLine, is_mirrored: bool, view: &View) -> Option<Family> {
        let sign = if is_mirrored { -1.0 } else { 1.0 };
        // In the picture y runs down.
        let along = Point2D { x: sign * line.angle.cos(), y: -line.angle.sin() };
        let across = Point2D { x: -along.y, y: along.x };
        let origin = view.place(Point2D { x: sign * line.origin.x, y: line.origin.y });
        let offset = Point2D { x: sign * line.offset.x * view.scale, y: -line.offset.y * view.scale };
        let step = product(across, offset);
        let is_single = step.abs() <= ALONG * offset.x.hypot(offset.y);
        let stripes = Stripes { along, across, base: product(across, origin), step: if is_single { 1.0 } else { step } };
        let period = line.dashes.iter().map(|dash| dash.abs()).sum::<f64>() * view.scale;
        if !line.dashes.is_empty() && line.dashes.iter().all(|dash| *dash < 0.0) {
            return None;
        }
        let dashes = if period < LEAST_PERIOD { Vec::new() } else { line.dashes.iter().map(|dash| dash * view.scale).collect() };
        Some(Family { stripes, is_single, start: product(along, origin), shift: product(along, offset), dashes, period })
    }

    /// Adds the family's strokes, and says how many parts of lines lie in the area, seen or not. `None` if these, or all strokes, are more than so many.
    fn draw(&self, area: &Area, view: &View, most_parts: usize, most: usize, strokes: &mut Vec<[Point2D; 2]>) -> Option<usize> {
        let [width, height] = [view.width, view.height].map(f64::from);
        let corners = [[0.0, 0.0], [width, 0.0], [0.0, height], [width, height]].map(|[x, y]| Point2D { x, y });
        let [first, last] = ends(corners.map(|corner| self.stripes.number(corner)));
        let numbers = if self.is_single { [0.0, 0.0] } else { [first.ceil(), last.floor()] };
        let seen = ends(corners.map(|corner| product(self.stripes.along, corner)));
        let parts = area.inside(&self.stripes, numbers, most_parts)?;
        for part in &parts {
            let part = Inside { from: part.from.max(seen[0]), to: part.to.min(seen[1]), ..*part };
            if part.from < part.to {
                self.dash(&part, most, strokes)?;
            }
        }
        Some(parts.len())
    }

    /// Adds a part of a line, with its gaps.
    fn dash(&self, part: &Inside, most: usize, strokes: &mut Vec<[Point2D; 2]>) -> Option<()> {
        let stroke = |ends: [f64; 2]| ends.map(|along| self.stripes.point(part.line, along));
        let start = self.start + part.line * self.shift;
        if self.dashes.is_empty() || start.abs() > FARTHEST_START {
            strokes.push(stroke([part.from, part.to]));
            return (strokes.len() <= most).then_some(());
        }
        let [first, last] = [part.from, part.to].map(|along| ((along - start) / self.period).floor() as i64);
        for period in first..=last {
            strokes.extend(self.drawn(start + period as f64 * self.period, part).map(stroke));
            if strokes.len() > most {
                return None;
            }
        }
        Some(())
    }

    /// The dashes of one period that starts at `from`, as far as they lie in the part.
    fn drawn<'a>(&'a self, from: f64, part: &'a Inside) -> impl Iterator<Item = [f64; 2]> + 'a {
        let mut at = from;
        self.dashes.iter().filter_map(move |dash| {
            let start = at;
            at += dash.abs();
            let ends = [start.max(part.from), (start + dash).min(part.to)];
            (ends[0] < ends[1] || *dash == 0.0 && ends[0] == ends[1]).then_some(ends)
        })
    }
}

/// The least and the greatest of some numbers.
fn ends(numbers: [f64; 4]) -> [f64; 2] {
    [numbers.into_iter().fold(f64::INFINITY, f64::min), numbers.into_iter().fold(f64::NEG_INFINITY, f64::max)]
}

#[cfg(test)]
#[path = "patterns_tests.rs"]
mod tests;
