//! Which part of a drawing a picture shows, and where a point of the drawing lies in it.

use dwg_hatch::Point2D;

use super::runs::GREATEST;

/// The least side of a view, in the drawing's units, and by its farthest coordinate: what is smaller has no digits in doubles.
const LEAST_SIDE: f64 = 1e-9;
const LEAST_PART: f64 = 1e-12;

/// The margin around what is drawn, by its longer side.
const MARGIN: f64 = 0.05;

/// The least and greatest coordinates of what is drawn.
#[derive(Clone, Copy, Debug, PartialEq)]
pub struct Extents {
    /// The lower left corner.
    pub least: Point2D,
    /// The upper right corner.
    pub greatest: Point2D,
}

impl Default for Extents {
    /// Those of nothing.
    fn default() -> Extents {
        let [least, greatest] = [f64::INFINITY, f64::NEG_INFINITY];
        Extents { least: Point2D { x: least, y: least }, greatest: Point2D { x: greatest, y: greatest } }
    }
}

impl Extents {
    /// Widens them so that a point lies within them.
    pub fn include(&mut self, point: Point2D) {
        self.least = Point2D { x: self.least.x.min(point.x), y: self.least.y.min(point.y) };
        self.greatest = Point2D { x: self.greatest.x.max(point.x), y: self.greatest.y.max(point.y) };
    }

    /// Whether they are those of nothing.
    pub fn is_empty(&self) -> bool {
        self.least.x > self.greatest.x
    }

    /// Whether any point lies within both.
    pub fn meets(&self, other: &Extents) -> bool {
        let along = |low: f64, high: f64, other_low: f64, other_high: f64| low <= other_high && other_low <= high;
        along(self.least.x, self.greatest.x, other.least.x, other.greatest.x) && along(self.least.y, self.greatest.y, other.least.y, other.greatest.y)
    }

    /// Four numbers X,Y,WIDTH,HEIGHT: the lower left corner and the sides. `None` if they are no view.
    pub fn parse(text: &str) -> Option<Extents> {
        let numbers: Vec<f64> = text.split(',').map(|number| number.trim().parse().ok()).collect::<Option<_>>()?;
        let [x, y, width, height] = numbers[..] else { return None };
        let farthest = x.abs().max(y.abs());
        let fits = |side: f64| (LEAST_SIDE..=GREATEST).contains(&side) && side >= LEAST_PART * farthest;
        // A NaN is in no range; max passes it over, so both are looked at.
        let near = |coordinate: f64| (-GREATEST..=GREATEST).contains(&coordinate);
        let greatest = Point2D { x: x + width, y: y + height };
        ([x, y].into_iter().all(near) && fits(width) && fits(height)).then_some(Extents { least: Point2D { x, y }, greatest })
    }

    /// As `--view` takes it, in few digits: the corner rounded down and the sides up.
    pub fn rounded(&self) -> String {
        let Extents { least, greatest } = *self;
        let side = (greatest.x - least.x).max(greatest.y - least.y);
        let power = side.log10().floor() - 2.0;
        let (step, decimals) = (10f64.powf(power), if power < 0.0 { -power as usize } else { 0 });
        let corner = [least.x, least.y].map(|coordinate| (coordinate / step).floor() * step);
        let sides = [greatest.x - corner[0], greatest.y - corner[1]].map(|side| (side / step).ceil() * step);
        corner.into_iter().chain(sides).map(|number| format!("{number:.decimals$}")).collect::<Vec<String>>().join(",")
    }

    /// With a margin on all sides. What has no extent, such as a single point, gets some.
    pub fn with_margin(&self) -> Extents {
        let Extents { least, greatest } = *self;
        let farthest = farthest(self);
        let side = (greatest.x - least.x).max(greatest.y - least.y).max(LEAST_SIDE).max(LEAST_PART * farthest);
        let margin = side * if least == greatest { 0.5 } else { MARGIN };
        Extents {
            least: Point2D { x: least.x - margin, y: least.y - margin },
            greatest: Point2D { x: greatest.x + margin, y: greatest.y + margin },
        }
    }
}

/// The greatest absolute value of a coordinate.
fn farthest(extents: &Extents) -> f64 {
    let Extents { least, greatest } = extents;
    [least.x, least.y, greatest.x, greatest.y].into_iter().fold(0.0, |far: f64, coordinate| far.max(coordinate.abs()))
}

/// A picture's size and scale. Coordinates in it are pixels from its upper left corner, y down.
///
/// A point is moved by the view's corner in doubles before it is scaled, so that far from the drawing's origin the picture's numbers are small:
/// what shows a picture may compute in single precision. Where a coordinate lies within a factor of 2 of the corner's, the difference is exact;
/// elsewhere it is off by half of its last digit at most. So ends that are the same double stay the same.
#[derive(Clone, Copy, Debug, PartialEq)]
pub struct View {
    /// What of the drawing is in view.
    pub extents: Extents,
    /// The picture's width in pixels.
    pub width: u32,
    /// Its height.
    pub height: u32,
    /// Pixels of a unit of the drawing.
    pub scale: f64,
}

impl View {
    /// The view of these extents in a picture of this width.
    pub fn new(extents: Extents, width: u32) -> View {
        let Extents { least, greatest } = extents;
        let [across, up] = [greatest.x - least.x, greatest.y - least.y];
        let scale = f64::from(width) / across;
        // A side is the difference of rounded coordinates: what their last digits may add is no row of pixels, so that a square stays one.
        let farthest = self::farthest(&extents);
        let slack = 1e-6 + up * scale * (farthest * 4.0 * f64::EPSILON) * (1.0 / across + 1.0 / up);
        let height = (up * scale - slack).ceil().clamp(1.0, f64::from(Self::TALLEST)) as u32;
        View { extents, width, height, scale }
    }

    /// The greatest width or height of a picture.
    pub const TALLEST: u32 = 100_000;

    /// Where a point of the drawing lies in the picture.
    pub fn place(&self, point: Point2D) -> Point2D {
        let corner = self.corner();
        Point2D { x: (point.x - corner.x) * self.scale, y: (corner.y - point.y) * self.scale }
    }

    /// The point of the drawing at the picture's upper left corner.
    pub fn corner(&self) -> Point2D {
        Point2D { x: self.extents.least.x, y: self.extents.greatest.y }
    }
}

#[cfg(test)]
mod tests {
    use super::*;

    fn extents(numbers: [f64; 4]) -> Extents {
        let mut extents = Extents::default();
        [[numbers[0], numbers[1]], [numbers[2], numbers[3]]].into_iter().for_each(|[x, y]| extents.include(Point2D { x, y }));
        extents
    }

    #[test]
    fn y_runs_down_in_the_picture() {
        let view = View::new(extents([10.0, 20.0, 14.0, 22.0]), 400);
        assert_eq!((view.height, view.scale), (200, 100.0));
        assert_eq!(view.place(Point2D { x: 10.0, y: 22.0 }), Point2D { x: 0.0, y: 0.0 });
        assert_eq!(view.place(Point2D { x: 14.0, y: 20.0 }), Point2D { x: 400.0, y: 200.0 });
    }

    /// Doubles that differ by one step far from the origin lie at different places, by that step times the scale.
    #[test]
    fn far_from_the_origin_no_digit_is_lost() {
        let view = View::new(Extents::parse("4650000,5230000,10,10").expect("a view"), 1000);
        let x = 4_650_003.3f64;
        let [here, next] = [x, f64::from_bits(x.to_bits() + 1)].map(|x| view.place(Point2D { x, y: 5_230_000.0 }).x);
        let step = 2f64.powi(22 - 52) * 100.0;
        assert!((next - here - step).abs() < step / 1000.0, "{here} {next}");
    }

    #[test]
    fn a_square_view_is_a_square_picture() {
        for text in ["0,0,10,10", "4650945.1,9230702.7,0.3,0.3", "4650000,9230000,7,7", "-1e15,1e15,1e4,1e4", "0.1,0.2,1e-9,1e-9"] {
            let view = View::new(Extents::parse(text).expect("a view"), 1000);
            assert_eq!((view.width, view.height), (1000, 1000), "{text}");
        }
        // A part of a pixel has a row of its own.
        assert_eq!(View::new(Extents::parse("4650000,0,10,7.001").expect("a view"), 1000).height, 701);
    }

    #[test]
    fn a_view_in_few_digits_is_a_view_of_as_much() {
        assert_eq!(extents([4_650_945.118, 9_230_702.9, 4_650_989.2, 9_230_731.0]).rounded(), "4650945.1,9230702.9,44.1,28.1");
        for given in [[0.0, 0.0, 1e-9, 1e-9], [-4e14, 0.0, 4e14, 5.0], [123.456, -9.87, 124.0, -9.5]] {
            let parsed = Extents::parse(&extents(given).rounded()).expect("a view");
            assert!(parsed.least.x <= given[0] && parsed.greatest.x >= given[2] - 1e-12 * given[2].abs(), "{given:?} {parsed:?}");
        }
    }

    #[test]
    fn a_point_alone_has_a_view() {
        for point in [[0.0; 2], [4_650_000.0, -3.0], [GREATEST, GREATEST]] {
            let view = View::new(extents([point[0], point[1], point[0], point[1]]).with_margin(), 100);
            let place = view.place(Point2D { x: point[0], y: point[1] });
            assert!((place.x - 50.0).abs() < 10.0 && (place.y - 50.0).abs() < 10.0 && view.scale.is_finite(), "{view:?}");
        }
    }

    #[test]
    fn views_are_four_numbers_that_make_sense() {
        assert_eq!(Extents::parse("1, -2,3.5,4e0"), Some(extents([1.0, -2.0, 4.5, 2.0])));
        for text in ["", "1,2,3", "1,2,3,4,5", "1,2,0,4", "1,2,3,-4", "nan,2,3,4", "1,inf,3,4", "1,2,inf,4", "1e300,2,3,4", "1e15,0,1e-9,1", "a,b,c,d"] {
            assert_eq!(Extents::parse(text), None, "{text}");
        }
    }

    #[test]
    fn extents_meet_where_they_share_a_point() {
        let one = extents([0.0, 0.0, 2.0, 2.0]);
        assert!(one.meets(&extents([2.0, 2.0, 3.0, 3.0])) && one.meets(&extents([1.0, -5.0, 1.0, 5.0])));
        assert!(!one.meets(&extents([2.1, 0.0, 3.0, 3.0])) && !one.meets(&extents([0.0, -3.0, 3.0, -0.1])) && !one.meets(&Extents::default()));
    }
}
