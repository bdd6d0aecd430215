//! A hatch's record as a call takes it: all numbers, whatever they are.

use super::hatch_record::{color, GradientColor, Hatch, Places};
use super::texts::Text;

/// The most colours that a record holds.
const COLORS: usize = 16;

/// A hatch's record as numbers, for who keeps records or has them from elsewhere. A call that takes one looks at it, and refuses what does not fit its
/// lists; so the three switches that it looks at are bytes, which may be neither 0 nor 1. [`GivenHatch::from`] makes one of a [`Hatch`] that was read.
#[derive(Clone, Debug, PartialEq)]
pub struct GivenHatch<Double = f64> {
    /// The gradient.
    pub gradient: GivenGradient<Double>,
    /// The elevation.
    pub elevation: Double,
    /// The extrusion's x, y and z.
    pub extrusion: [Double; 3],
    /// The pattern's name.
    pub pattern_name: Text,
    /// 1 if the hatch is solid.
    pub solid_fill: u8,
    /// 1 if it goes with its boundary.
    pub associative: u8,
    /// The style's number.
    pub pattern_style: u16,
    /// The pattern type's number.
    pub pattern_type: u16,
    /// The pattern's angle.
    pub pattern_angle: Double,
    /// The pattern's scale.
    pub pattern_scale: Double,
    /// 1 if the pattern is doubled.
    pub pattern_double: u8,
    /// The pixel size.
    pub pixel_size: Double,
    /// How many paths there are.
    pub num_paths: usize,
    /// How many pattern lines there are.
    pub num_pattern_lines: usize,
    /// How many seed points there are.
    pub num_seed_points: usize,
    /// How many entries of the list of words are used.
    pub words_used: usize,
    /// How many entries of the list of numbers are used.
    pub numbers_used: usize,
    /// The final places.
    pub places: Places,
}

/// The gradient of a record, or 0 for each where there is none.
#[derive(Clone, Debug, PartialEq)]
pub struct GivenGradient<Double = f64> {
    /// Whether there is one.
    pub present: bool,
    /// The angle.
    pub angle: Double,
    /// The shift.
    pub shift: Double,
    /// Whether it is of one colour and a tint.
    pub is_single_color: u32,
    /// The tint.
    pub tint: Double,
    /// How many colours there are; above 16 the record is refused.
    pub num_colors: usize,
    /// The colours; past their count they are 0.
    pub colors: [GradientColor<Double>; COLORS],
    /// The gradient's name.
    pub name: Text,
}

impl<Double: Copy + Default> Default for GivenGradient<Double> {
    /// An absent one.
    fn default() -> GivenGradient<Double> {
        let zero = Double::default();
        let colors = [color(zero, 0, 0, 0); COLORS];
        GivenGradient { present: false, angle: zero, shift: zero, is_single_color: 0, tint: zero, num_colors: 0, colors, name: Text::NONE }
    }
}

impl<Double: Copy + Default> From<&Hatch<Double>> for GivenHatch<Double> {
    fn from(hatch: &Hatch<Double>) -> GivenHatch<Double> {
        GivenHatch {
            gradient: gradient(hatch),
            elevation: hatch.elevation,
            extrusion: hatch.extrusion,
            pattern_name: hatch.pattern_name,
            solid_fill: u8::from(hatch.solid_fill),
            associative: u8::from(hatch.associative),
            pattern_style: hatch.pattern_style,
            pattern_type: hatch.pattern_type,
            pattern_angle: hatch.pattern_angle,
            pattern_scale: hatch.pattern_scale,
            pattern_double: u8::from(hatch.pattern_double),
            pixel_size: hatch.pixel_size,
            num_paths: hatch.num_paths,
            num_pattern_lines: hatch.num_pattern_lines,
            num_seed_points: hatch.num_seed_points,
            words_used: hatch.words_used,
            numbers_used: hatch.numbers_used,
            places: hatch.places,
        }
    }
}

/// The gradient of a hatch as numbers. A record has room for sixteen colours; of more, which no reading gives, the count tells.
fn gradient<Double: Copy + Default>(hatch: &Hatch<Double>) -> GivenGradient<Double> {
    let absent = GivenGradient::default();
    let Some(fill) = &hatch.gradient else { return absent };
    let mut colors = absent.colors;
    colors.iter_mut().zip(&fill.colors).for_each(|(place, color)| *place = *color);
    GivenGradient {
        present: true,
        angle: fill.angle,
        shift: fill.shift,
        is_single_color: fill.is_single_color,
        tint: fill.tint,
        num_colors: fill.colors.len(),
        colors,
        name: fill.name,
    }
}
