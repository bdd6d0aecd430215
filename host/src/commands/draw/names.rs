//! Names of hatches, written into them where they fit: the number of the request line and the pattern's name, or the number alone.

use dwg_hatch::Point2D;

use super::area::{Area, Stripes};
use super::gradients::Frame;
use super::pen::{escaped, number};

/// The height of a name's letters and about how wide one is, in pixels; others than ASCII may be as wide as high.
const HEIGHT: f64 = 12.0;
const WIDTH: f64 = 7.5;

/// The space around a name.
const SPACE: f64 = 4.0;

/// At so many heights a place is looked for.
const HEIGHTS: u32 = 9;

/// So many names at most are written, since each is held until the picture's end.
const MOST_NAMES: usize = 2000;

/// The names of a picture. They stand above all that is drawn, and none on another.
#[derive(Debug, Default)]
pub struct Names {
    placed: Vec<Frame>,
    text: String,
}

impl Names {
    /// Whether one of the names may fit into a hatch that has this box.
    pub fn may_fit(&self, names: &[String], frame: &Frame) -> bool {
        let (width, height) = (frame.greatest.x - frame.least.x, frame.greatest.y - frame.least.y);
        self.placed.len() < MOST_NAMES && height >= HEIGHT + SPACE && names.iter().any(|name| wide(name) <= width)
    }

    /// Writes the first of the names that fits into an area, where there is most space, within the part of the box that is seen.
    pub fn add(&mut self, names: &[String], colour: &str, area: &Area, frame: &Frame) {
        let places = places(area, frame);
        let fitting = |name: &String| places.iter().find(|place| self.fits(wide(name), place)).map(|place| (name.clone(), *place));
        let Some((name, place)) = names.iter().find_map(fitting) else { return };
        self.placed.push(taken(wide(&name), &place));
        let (x, y) = (number(place.middle.x), number(place.middle.y + HEIGHT * 0.35));
        self.text += &format!("<text class=\"name\" x=\"{x}\" y=\"{y}\" text-anchor=\"middle\" fill=\"{colour}\">{}</text>\n", escaped(&name));
    }

    /// All names.
    pub fn text(&self) -> &str {
        &self.text
    }

    fn fits(&self, width: f64, place: &Place) -> bool {
        let wanted = taken(width, place);
        let apart = |other: &Frame| {
            let beside = wanted.greatest.x < other.least.x || other.greatest.x < wanted.least.x;
            beside || wanted.greatest.y < other.least.y || other.greatest.y < wanted.least.y
        };
        width <= place.width && self.placed.iter().all(apart)
    }
}

/// A place in an area that is as high as a name, and so wide.
#[derive(Clone, Copy, Debug)]
struct Place {
    middle: Point2D,
    width: f64,
}

/// About how wide a name is, with space around it.
fn wide(name: &str) -> f64 {
    name.chars().map(|letter| if letter.is_ascii() { WIDTH } else { HEIGHT }).sum::<f64>() + 2.0 * SPACE
}

fn taken(width: f64, place: &Place) -> Frame {
    let (half, high, Point2D { x, y }) = (width / 2.0, (HEIGHT + SPACE) / 2.0, place.middle);
    Frame { least: Point2D { x: x - half, y: y - high }, greatest: Point2D { x: x + half, y: y + high } }
}

/// The widest place at each height, the widest first.
fn places(area: &Area, frame: &Frame) -> Vec<Place> {
    let high = frame.greatest.y - frame.least.y - HEIGHT - SPACE;
    let heights = (0..HEIGHTS).map(|at| frame.least.y + (HEIGHT + SPACE) / 2.0 + high * f64::from(at) / f64::from(HEIGHTS - 1));
    let mut places: Vec<Place> = heights.filter_map(|y| place(area, y, frame)).collect();
    // The sort keeps the order of those that are as wide, so the middle one of them comes first if it is put there.
    places.sort_by_key(|place| ((place.middle.y - (frame.least.y + frame.greatest.y) / 2.0).abs() * 16.0) as u64);
    places.sort_by_key(|place| std::cmp::Reverse((place.width / 16.0) as u64));
    places
}

/// The widest place around a height: what is inside above, at and below it.
fn place(area: &Area, y: f64, frame: &Frame) -> Option<Place> {
    let half = (HEIGHT + SPACE) / 2.0;
    let across = |base: f64| {
        let stripes = Stripes { along: Point2D { x: 1.0, y: 0.0 }, across: Point2D { x: 0.0, y: 1.0 }, base, step: 1.0 };
        let inside = area.inside(&stripes, [0.0, 0.0], usize::MAX / 2).unwrap_or_default();
        inside.iter().map(|part| [part.from.max(frame.least.x), part.to.min(frame.greatest.x)]).collect::<Vec<[f64; 2]>>()
    };
    let common = common(&common(&across(y - half), &across(y)), &across(y + half));
    let widest = common.into_iter().max_by(|one, other| (one[1] - one[0]).total_cmp(&(other[1] - other[0])))?;
    Some(Place { middle: Point2D { x: (widest[0] + widest[1]) / 2.0, y }, width: widest[1] - widest[0] })
}

/// What lies in both of two lists of parts of a line, each in rising order.
fn common(one: &[[f64; 2]], other: &[[f64; 2]]) -> Vec<[f64; 2]> {
    let (mut at, mut there, mut both) = (0, 0, Vec::new());
    while let (Some([from, to]), Some([other_from, other_to])) = (one.get(at), other.get(there)) {
        let part = [from.max(*other_from), to.min(*other_to)];
        both.extend((part[0] < part[1]).then_some(part));
        if to < other_to { at += 1 } else { there += 1 }
    }
    both
}

#[cfg(test)]
mod tests {
    use super::*;
    use crate::commands::draw::runs::Run;
    use crate::commands::draw::view::{Extents, View};

    fn point(x: f64, y: f64) -> Point2D {
        Point2D { x, y }
    }

    /// The names' text of areas of 1000 pixels each way, given as rings in pixels from the lower left corner.
    fn written(areas: &[&[(f64, f64)]], name: &str) -> String {
        let view = View::new(Extents::parse("0,0,1000,1000").expect("a view"), 1000);
        let frame = Frame { least: point(0.0, 0.0), greatest: point(1000.0, 1000.0) };
        let mut names = Names::default();
        for ring in areas {
            let mut area = Area::default();
            area.add(&[Run::lines(ring.iter().map(|(x, y)| point(*x, *y))).expect("points")], &view);
            names.add(&[name.to_string(), "7".to_string()], "#000", &area, &frame);
        }
        names.text().to_string()
    }

    #[test]
    fn a_name_stands_where_there_is_space() {
        // An L: its foot is wide, its stem is not.
        let foot = [(0.0, 0.0), (900.0, 0.0), (900.0, 300.0), (60.0, 300.0), (60.0, 1000.0), (0.0, 1000.0)];
        assert!(written(&[&foot], "7: SOLID").contains("<text class=\"name\" x=\"450\""), "{}", written(&[&foot], "7: SOLID"));
    }

    #[test]
    fn what_does_not_fit_is_the_number_or_nothing() {
        let narrow = [(0.0, 0.0), (30.0, 0.0), (30.0, 900.0), (0.0, 900.0)];
        assert!(written(&[&narrow], "7: SOLID").contains(">7</text>"));
        let thin = [(0.0, 500.0), (900.0, 500.0), (900.0, 505.0), (0.0, 505.0)];
        assert_eq!(written(&[&thin], "7: SOLID"), "");
    }

    #[test]
    fn no_name_stands_on_another() {
        let square = [(0.0, 0.0), (900.0, 0.0), (900.0, 900.0), (0.0, 900.0)];
        let text = written(&[&square[..]; 12], "7: SOLID");
        let places: Vec<&str> = text.lines().map(|line| line.split('"').nth(5).expect("y")).collect();
        assert!(places.len() <= HEIGHTS as usize && places.iter().all(|y| places.iter().filter(|other| *other == y).count() == 1), "{text}");
    }

    #[test]
    fn parts_that_are_common() {
        assert_eq!(common(&[[0.0, 4.0], [6.0, 9.0]], &[[1.0, 2.0], [3.0, 7.0]]), [[1.0, 2.0], [3.0, 4.0], [6.0, 7.0]]);
        assert!(common(&[[0.0, 1.0]], &[]).is_empty() && common(&[[0.0, 1.0]], &[[1.0, 2.0]]).is_empty());
    }
}
