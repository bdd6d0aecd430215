//! What a hatch body holds, and an answer's structs as that.

use crate::boundary::ffi::{self, BodyFields, TextFields};
use super::codes::OUTSIDE;
use super::texts::{self, Text};
use std::ops::Range;

/// A place in each payload, in bits; without a string reader the second is 0.
#[derive(Clone, Copy, Debug, PartialEq, Eq)]
pub struct Places {
    /// In the main payload.
    pub main: usize,
    /// In the string payload.
    pub string: usize,
}

/// The lengths that the lists must have, and the final places.
#[derive(Clone, Copy, Debug, PartialEq, Eq)]
pub struct Lengths {
    /// Entries of the list of words.
    pub words: usize,
    /// Entries of the list of numbers.
    pub numbers: usize,
    /// The final places.
    pub places: Places,
}

/// A colour of a gradient.
#[derive(Clone, Copy, Debug, PartialEq)]
pub struct GradientColor<Double = f64> {
    /// A double to which no meaning is given.
    pub unknown_double: Double,
    /// A number to which no meaning is given.
    pub unknown_short: i16,
    /// Red, green and blue.
    pub rgb: u32,
    /// A byte that is passed over.
    pub ignored_color_byte: u8,
}

/// The gradient of a hatch.
#[derive(Clone, Debug, PartialEq)]
pub struct GradientFill<Double = f64> {
    /// The angle.
    pub angle: Double,
    /// The shift.
    pub shift: Double,
    /// Whether it is of one colour and a tint.
    pub is_single_color: u32,
    /// The tint.
    pub tint: Double,
    /// The colours, sixteen at most.
    pub colors: Vec<GradientColor<Double>>,
    /// The gradient's name.
    pub name: Text,
}

/// What a hatch holds beside its two lists. A pattern's fields are 0 where the hatch is solid, the pixel size where no path asks for it.
#[derive(Clone, Debug, PartialEq)]
pub struct Hatch<Double = f64> {
    /// The gradient, if there is one; from release 3.
    pub gradient: Option<GradientFill<Double>>,
    /// The elevation.
    pub elevation: Double,
    /// The extrusion's x, y and z.
    pub extrusion: [Double; 3],
    /// The pattern's name.
    pub pattern_name: Text,
    /// Whether the hatch is solid.
    pub solid_fill: bool,
    /// Whether it goes with its boundary.
    pub associative: bool,
    /// The style's number.
    pub pattern_style: u16,
    /// The pattern type's number.
    pub pattern_type: u16,
    /// The pattern's angle.
    pub pattern_angle: Double,
    /// The pattern's scale.
    pub pattern_scale: Double,
    /// Whether the pattern is doubled.
    pub pattern_double: bool,
    /// The pixel size.
    pub pixel_size: Double,
    /// How many paths there are.
    pub num_paths: usize,
    /// How many pattern lines there are.
    pub num_pattern_lines: usize,
    /// How many seed points there are. Their coordinates are the last of the numbers.
    pub num_seed_points: usize,
    /// How many entries of the list of words are used.
    pub words_used: usize,
    /// How many entries of the list of numbers are used.
    pub numbers_used: usize,
    /// The final places.
    pub places: Places,
}

impl<Double> Hatch<Double> {
    /// Which part of a list of so many numbers holds the seed points, x and y of each: the last numbers used. Empty where the list or the numbers
    /// used are too few for them.
    ///
    /// ```
    /// let bytes = [&[0xa9, 0xaa, 0x90, 0x10][..], &[0; 16]].concat();
    /// let mut numbers = [7.0; 3];
    /// let hatch = dwg_hatch::HatchBody::new(&bytes, 0, dwg_hatch::Release::R2000).decode_into(&mut numbers, &mut [])?;
    /// assert_eq!((hatch.seed_part(numbers.len()), hatch.seed_part(1)), (0..2, 0..0));
    /// # Ok::<(), dwg_hatch::Refusal>(())
    /// ```
    pub fn seed_part(&self, length: usize) -> Range<usize> {
        seed_part(self.numbers_used, self.num_seed_points, length)
    }
}

/// The same of so many numbers used and so many seed points.
pub(crate) fn seed_part(numbers_used: usize, num_seed_points: usize, length: usize) -> Range<usize> {
    // SAFETY: three numbers go in and two come out.
    let part = unsafe { ffi::dwg_hatch_seed_points(numbers_used, num_seed_points, length) };
    part.begin..part.begin + part.count
}

/// A hatch and its two lists, whose entries stand in reading order.
#[derive(Clone, Debug, PartialEq)]
pub struct ReadHatch<Double = f64> {
    /// The record.
    pub hatch: Hatch<Double>,
    /// Path flags, counts, kinds and switches of paths, and the dash count of each pattern line.
    pub words: Vec<u32>,
    /// The doubles of paths, pattern lines and seed points.
    pub numbers: Vec<Double>,
}

impl<Double: Copy> ReadHatch<Double> {
    /// A record with copies of its lists.
    pub(crate) fn of(hatch: Hatch<Double>, words: &[u32], numbers: &[Double]) -> ReadHatch<Double> {
        ReadHatch { hatch, words: words.to_vec(), numbers: numbers.to_vec() }
    }
}

pub(crate) fn color<Double>(unknown_double: Double, unknown_short: i16, rgb: u32, ignored_color_byte: u8) -> GradientColor<Double> {
    GradientColor { unknown_double, unknown_short, rgb, ignored_color_byte }
}

/// The gradient of an answer. If there is none it is 0 throughout, and colours past their count are; this is looked at.
pub(crate) fn fill<Double: Copy + Default + PartialEq>(
    present: bool,
    [angle, shift, tint]: [Double; 3],
    is_single_color: u32,
    (colors, count): ([GradientColor<Double>; 16], usize),
    name: &TextFields,
) -> Option<GradientFill<Double>> {
    let zero = Double::default();
    let (here, past) = colors.split_at_checked(count).unwrap_or_else(|| panic!("{OUTSIDE}"));
    assert!(past.iter().all(|other| *other == color(zero, 0, 0, 0)), "{OUTSIDE}");
    let fill = GradientFill { angle, shift, is_single_color, tint, colors: here.to_vec(), name: text(name) };
    let none = GradientFill { angle: zero, shift: zero, is_single_color: 0, tint: zero, colors: Vec::new(), name: Text::NONE };
    assert!(present || fill == none, "{OUTSIDE}");
    present.then_some(fill)
}

pub(crate) fn hatch<Double>(
    gradient: Option<GradientFill<Double>>,
    extrusion: [Double; 3],
    [elevation, pattern_angle, pattern_scale, pixel_size]: [Double; 4],
    fields: BodyFields,
    places: Places,
) -> Hatch<Double> {
    Hatch {
        gradient,
        elevation,
        extrusion,
        pattern_name: text(&fields.pattern_name),
        solid_fill: fields.solid_fill,
        associative: fields.associative,
        pattern_style: fields.pattern_style,
        pattern_type: fields.pattern_type,
        pattern_angle,
        pattern_scale,
        pattern_double: fields.pattern_double,
        pixel_size,
        num_paths: fields.num_paths,
        num_pattern_lines: fields.num_pattern_lines,
        num_seed_points: fields.num_seed_points,
        words_used: fields.words_used,
        numbers_used: fields.numbers_used,
        places,
    }
}

fn text(fields: &TextFields) -> Text {
    let TextFields { width, padded, position, count, .. } = *fields;
    Text { source: texts::source(fields.source, width), width, position, count, padded }
}
