//! Gradients of hatches as SVG has them. What each name looks like, and which way shift and angle work, is general knowledge of the format
//! (docs/DECISIONS.md).

use dwg_hatch::{GradientFill, Point2D};

use super::pen::number;

/// What is drawn between the first colour and the last.
enum Shape {
    /// Along a line.
    Linear,
    /// Along a line, to the last colour in its middle and back.
    Cylinder,
    /// From the rim to the centre.
    Spherical,
    /// The same around the middle of the lower side.
    Hemispherical,
}

/// The box of an area in the picture: its upper left and lower right corners.
#[derive(Clone, Copy, Debug)]
pub struct Frame {
    /// The upper left corner.
    pub least: Point2D,
    /// The lower right corner.
    pub greatest: Point2D,
}

/// The element that defines a gradient, in pixels; `None` if it has no colours, or a number that cannot be drawn. Seen from behind, its angle is
/// mirrored.
pub fn definition(id: &str, fill: &GradientFill, name: Option<&str>, is_mirrored: bool, frame: &Frame) -> Option<String> {
    let name = name.unwrap_or("").to_ascii_uppercase();
    let is_inverse = name.starts_with("INV");
    let shape = match name.trim_start_matches("INV") {
        "CYLINDER" => Shape::Cylinder,
        "SPHERICAL" => Shape::Spherical,
        "HEMISPHERICAL" => Shape::Hemispherical,
        _ => Shape::Linear,
    };
    let colours = if is_inverse { turned(&colours(fill)?) } else { colours(fill)? };
    let colours = match shape {
        Shape::Linear => colours,
        Shape::Cylinder => there_and_back(&colours),
        // The first colour is the rim's, and SVG counts from the centre.
        Shape::Spherical | Shape::Hemispherical => turned(&colours),
    };
    let shift = if fill.shift.is_finite() { fill.shift.clamp(0.0, 1.0) } else { 0.0 };
    let [width, height] = [frame.greatest.x - frame.least.x, frame.greatest.y - frame.least.y];
    // The gradient that is not centred has its middle a quarter to the left and a quarter up.
    let centre = Point2D { x: frame.least.x + width * (0.5 - 0.25 * shift), y: frame.least.y + height * (0.5 - 0.25 * shift) };
    let (open, close) = match shape {
        Shape::Linear | Shape::Cylinder => (linear(fill.angle, is_mirrored, centre, [width, height])?, "linearGradient"),
        Shape::Spherical => (radial(centre, width.hypot(height) / 2.0), "radialGradient"),
        Shape::Hemispherical => (radial(Point2D { y: frame.greatest.y, ..centre }, height.max(width / 2.0)), "radialGradient"),
    };
    Some(format!("<{close} id=\"{id}\" gradientUnits=\"userSpaceOnUse\" {open}>{}</{close}>", stops(&colours)))
}

/// Where a linear gradient starts and ends: as far as the box reaches in the angle's direction, to both sides of the centre.
fn linear(angle: f64, is_mirrored: bool, centre: Point2D, [width, height]: [f64; 2]) -> Option<String> {
    if !angle.is_finite() {
        return None;
    }
    let sign = if is_mirrored { -1.0 } else { 1.0 };
    // In the picture y runs down.
    let (x, y) = (sign * angle.cos(), -angle.sin());
    let half = (width * x.abs() + height * y.abs()) / 2.0;
    let ends = [("x1", centre.x - x * half), ("y1", centre.y - y * half), ("x2", centre.x + x * half), ("y2", centre.y + y * half)];
    Some(ends.map(|(name, value)| format!("{name}=\"{}\"", number(value))).join(" "))
}

fn radial(centre: Point2D, radius: f64) -> String {
    format!("cx=\"{}\" cy=\"{}\" r=\"{}\"", number(centre.x), number(centre.y), number(radius.max(1e-3)))
}

/// The colours, each with the part of the way at which it stands; from the first to the last. Of a single one the second is its tint.
fn colours(fill: &GradientFill) -> Option<Vec<(f64, u32)>> {
    let given: Vec<(f64, u32)> = fill.colors.iter().map(|color| (color.unknown_double, color.rgb & 0xff_ffff)).collect();
    let (_, only) = *given.first()?;
    if given.len() == 1 {
        return Some(vec![(0.0, only), (1.0, tinted(only, fill.tint))]);
    }
    // As they stand if they part the way, else at even distances.
    let parted = given.windows(2).all(|pair| pair[0].0 < pair[1].0) && given[0].0 >= 0.0 && given[given.len() - 1].0 <= 1.0;
    let last = (given.len() - 1) as f64;
    let even = given.iter().enumerate().map(|(at, (_, colour))| (at as f64 / last, *colour)).collect();
    Some(if parted { given } else { even })
}

/// A colour's tint: 0 is black, 1 white, and 0.5 the colour itself.
fn tinted(colour: u32, tint: f64) -> u32 {
    let tint = if tint.is_finite() { tint.clamp(0.0, 1.0) } else { 0.5 };
    let channel = |shift: u32| {
        let value = f64::from(colour >> shift & 0xff);
        let mixed = if tint < 0.5 { value * 2.0 * tint } else { value + (255.0 - value) * (2.0 * tint - 1.0) };
        (mixed.round() as u32) << shift
    };
    channel(16) | channel(8) | channel(0)
}

/// The colours from the last to the first.
fn turned(colours: &[(f64, u32)]) -> Vec<(f64, u32)> {
    colours.iter().rev().map(|(part, colour)| (1.0 - part, *colour)).collect()
}

/// The colours to the middle of the way, and back.
fn there_and_back(colours: &[(f64, u32)]) -> Vec<(f64, u32)> {
    let half = |colours: &[(f64, u32)], from: f64| colours.iter().map(|(part, colour)| (from + part / 2.0, *colour)).collect::<Vec<_>>();
    [half(colours, 0.0), half(&turned(colours), 0.5)].concat()
}

fn stops(colours: &[(f64, u32)]) -> String {
    colours.iter().map(|(part, colour)| format!("<stop offset=\"{}\" stop-color=\"#{colour:06x}\"/>", number(*part))).collect()
}

#[cfg(test)]
mod tests {
    use super::*;
    use dwg_hatch::GradientColor;

    const FRAME: Frame = Frame { least: Point2D { x: 10.0, y: 20.0 }, greatest: Point2D { x: 110.0, y: 60.0 } };

    fn fill(angle: f64, colours: &[(f64, u32)]) -> GradientFill {
        let colors = colours.iter().map(|(part, rgb)| GradientColor { unknown_double: *part, unknown_short: 0, rgb: *rgb, ignored_color_byte: 0 });
        let name = dwg_hatch::Text { source: dwg_hatch::Source::Main, width: 8, position: 0, count: 0, padded: false };
        GradientFill { angle, shift: 0.0, is_single_color: 0, tint: 1.0, colors: colors.collect(), name }
    }

    const RED_TO_BLUE: [(f64, u32); 2] = [(0.0, 0xc2ff_0000), (1.0, 0xc200_00ff)];

    #[test]
    fn a_linear_gradient_goes_from_side_to_side() {
        let along = definition("g", &fill(0.0, &RED_TO_BLUE), Some("LINEAR"), false, &FRAME).expect("a gradient");
        assert!(along.contains("x1=\"10\" y1=\"40\" x2=\"110\" y2=\"40\""), "{along}");
        assert!(along.contains("<stop offset=\"0\" stop-color=\"#ff0000\"/><stop offset=\"1\" stop-color=\"#0000ff\"/>"), "{along}");
        let up = definition("g", &fill(std::f64::consts::FRAC_PI_2, &RED_TO_BLUE), None, false, &FRAME).expect("a gradient");
        assert!(up.contains("x1=\"60\" y1=\"60\" x2=\"60\" y2=\"20\""), "{up}");
        let behind = definition("g", &fill(0.0, &RED_TO_BLUE), Some("LINEAR"), true, &FRAME).expect("a gradient");
        assert!(behind.contains("x1=\"110\" y1=\"40\" x2=\"10\" y2=\"40\""), "{behind}");
    }

    #[test]
    fn a_cylinder_has_its_last_colour_in_the_middle() {
        let given = definition("g", &fill(0.0, &RED_TO_BLUE), Some("cylinder"), false, &FRAME).expect("a gradient");
        let middle = "<stop offset=\"0.5\" stop-color=\"#0000ff\"/><stop offset=\"0.5\" stop-color=\"#0000ff\"/><stop offset=\"1\" stop-color=\"#ff0000\"/>";
        assert!(given.contains(&format!("<stop offset=\"0\" stop-color=\"#ff0000\"/>{middle}")), "{given}");
        let inverse = definition("g", &fill(0.0, &RED_TO_BLUE), Some("INVCYLINDER"), false, &FRAME).expect("a gradient");
        assert!(inverse.contains("<stop offset=\"0.5\" stop-color=\"#ff0000\"/>"), "{inverse}");
    }

    #[test]
    fn round_gradients_have_a_centre() {
        let given = |name| definition("g", &fill(0.0, &RED_TO_BLUE), Some(name), false, &FRAME).expect("a gradient");
        assert!(given("SPHERICAL").starts_with("<radialGradient id=\"g\" gradientUnits=\"userSpaceOnUse\" cx=\"60\" cy=\"40\" r=\"53.85165\">"));
        assert!(given("HEMISPHERICAL").contains("cx=\"60\" cy=\"60\" r=\"50\""));
        assert!(given("SPHERICAL").contains("<stop offset=\"0\" stop-color=\"#0000ff\"/>"), "the last colour is the centre's");
        assert!(given("INVSPHERICAL").contains("<stop offset=\"0\" stop-color=\"#ff0000\"/>"));
        let shifted = GradientFill { shift: 1.0, ..fill(0.0, &RED_TO_BLUE) };
        assert!(definition("g", &shifted, Some("SPHERICAL"), false, &FRAME).expect("a gradient").contains("cx=\"35\" cy=\"30\""));
    }

    #[test]
    fn colours_that_do_not_part_the_way_are_even() {
        let even = |parts: [f64; 3]| colours(&fill(0.0, &parts.map(|part| (part, 1)))).expect("colours").iter().map(|colour| colour.0).collect::<Vec<_>>();
        assert_eq!(even([0.0, 0.25, 1.0]), [0.0, 0.25, 1.0]);
        for parts in [[0.0, 0.0, 0.0], [1.0, 0.5, 0.0], [0.0, f64::NAN, 1.0], [0.0, 0.5, 2.0]] {
            assert_eq!(even(parts), [0.0, 0.5, 1.0], "{parts:?}");
        }
        assert!(colours(&fill(0.0, &[])).is_none());
    }

    #[test]
    fn a_single_colour_goes_to_its_tint() {
        assert_eq!([0.0, 0.25, 0.5, 0.75, 1.0, f64::NAN].map(|tint| tinted(0x80_40_00, tint)), [0, 0x40_20_00, 0x80_40_00, 0xc0_a0_80, 0xff_ff_ff, 0x80_40_00]);
        let one = colours(&fill(0.0, &[(0.0, 0xff_00_00)])).expect("colours");
        assert_eq!(one, [(0.0, 0xff_00_00), (1.0, 0xff_ff_ff)]);
    }
}
