//! The origin of a hatch moved near the job, in the lists that it was read into: coordinates near 0 keep their digits where a program narrows them.
//!
//! A call looks at record and lists first. So what it takes may have been altered since it was read, or come from elsewhere.

use super::codes::OUTSIDE;
use super::given::GivenHatch;
use super::hatch_record::{Hatch, ReadHatch};
use super::outline_lists::{Counts, Rest};
use super::refusal::Refusal;
use super::texts::{Source, Text};
use super::typed::TypedHatch;
use crate::boundary::ffi::{self, FieldsGiven, MoveAnswer, TextGiven};

/// Calls an entry with a record's numbers. It is a macro because the structs with f64 and those with bits are two types with the same fields.
macro_rules! call {
    ($hatch:expr, $words:expr, $numbers:expr, $x:expr, $y:expr, $call:path, $Body:ident, $Gradient:ident, $Color:ident) => {{
        let (h, g) = ($hatch, &$hatch.gradient);
        let gradient = ffi::$Gradient {
            present: u8::from(g.present),
            angle: g.angle,
            shift: g.shift,
            is_single_color: g.is_single_color,
            tint: g.tint,
            num_colors: g.num_colors,
            colors: g.colors.map(|c| ffi::$Color {
                unknown_double: c.unknown_double,
                unknown_short: c.unknown_short,
                rgb: c.rgb,
                ignored_color_byte: c.ignored_color_byte,
            }),
            name: text(&g.name),
        };
        let [extrusion_x, extrusion_y, extrusion_z] = h.extrusion;
        let given = ffi::$Body {
            refusal: 0,
            place: h.places.main,
            string_place: h.places.string,
            gradient,
            elevation: h.elevation,
            extrusion_x,
            extrusion_y,
            extrusion_z,
            pattern_angle: h.pattern_angle,
            pattern_scale: h.pattern_scale,
            pixel_size: h.pixel_size,
            fields: fields(h),
        };
        // SAFETY: the function of ffi.rs takes a slice as its pointer and length, reads no entry outside it whatever the record's numbers are, writes
        // nothing but its answer and entries of the list of numbers, which is lent for writing, and keeps nothing. A slice's pointer is not null.
        moved(unsafe { $call(given, $words.as_ptr(), $words.len(), $numbers.as_mut_ptr(), $numbers.len(), $x, $y) })
    }};
}

impl GivenHatch {
    /// Moves the origin to (x, y) in the record's lists, as [`Hatch::move_origin`] does.
    pub fn move_origin(&self, words: &[u32], numbers: &mut [f64], x: f64, y: f64) -> Result<(), Refusal> {
        call!(self, words, numbers, x, y, ffi::dwg_hatch_move_origin, BodyGiven, GradientGiven, GradientColor)
    }
}

impl GivenHatch<u64> {
    /// The same with each double as its 64 bits.
    pub fn move_origin(&self, words: &[u32], bits: &mut [u64], x: u64, y: u64) -> Result<(), Refusal> {
        call!(self, words, bits, x, y, ffi::dwg_hatch_move_origin_bits, BodyBitsGiven, GradientBitsGiven, GradientColorBits)
    }
}

impl Hatch {
    /// Moves the origin to (x, y) in the lists that the hatch was read into: each coordinate becomes coordinate minus origin, by one subtraction. Coordinates
    /// are those of vertices, line ends, centres, control points, fit points, origins of pattern lines and seed points. All else keeps its bits, entries past
    /// the lengths used too: an ellipse's endpoint and the tangents are directions. (Of an f64 that is a NaN this is tested; with 64 bits it is proved.)
    ///
    /// Refuses record and lists that do not fit each other ([`Reason::ListTooShort`](crate::Reason)), then an extrusion that is not (0, 0, 1)
    /// (`OtherPlane`), then an origin or a coordinate to be moved that is no number from -2^40 to 2^40 (`CoordinateOutOfRange`). Then nothing is moved.
    ///
    /// ```
    /// use dwg_hatch::{HatchBody, Reason, Release};
    /// let payload = [&[0xa9, 0xaa, 0x90, 0x10][..], &[0; 16]].concat();
    /// let (mut numbers, mut words) = ([0.0; 3], []);
    /// let hatch = HatchBody::new(&payload, 0, Release::R2000).decode_into(&mut numbers, &mut words)?;
    /// numbers = [4_650_210.37, 9_230_146.81, 7.0]; // the seed point, and an entry that is not used
    /// hatch.move_origin(&words, &mut numbers, 4_650_000.0, 9_230_000.0)?;
    /// assert_eq!(numbers, [210.37000000011176, 146.81000000052154, 7.0]);
    ///
    /// let refusal = hatch.move_origin(&words, &mut numbers, 1e13, 0.0).unwrap_err();
    /// assert_eq!((refusal.reason, numbers[0]), (Reason::CoordinateOutOfRange, 210.37000000011176));
    /// # Ok::<(), dwg_hatch::Refusal>(())
    /// ```
    pub fn move_origin(&self, words: &[u32], numbers: &mut [f64], x: f64, y: f64) -> Result<(), Refusal> {
        GivenHatch::from(self).move_origin(words, numbers, x, y)
    }
}

impl Hatch<u64> {
    /// The same with each double as its 64 bits.
    pub fn move_origin(&self, words: &[u32], bits: &mut [u64], x: u64, y: u64) -> Result<(), Refusal> {
        GivenHatch::from(self).move_origin(words, bits, x, y)
    }
}

/// The same call for both kinds of doubles, of what has its lists with it.
macro_rules! move_with_lists {
    ($Double:ty) => {
        impl ReadHatch<$Double> {
            /// Moves the origin to (x, y) in its lists, as [`Hatch::move_origin`] does.
            pub fn move_origin(&mut self, x: $Double, y: $Double) -> Result<(), Refusal> {
                self.hatch.move_origin(&self.words, &mut self.numbers, x, y)
            }
        }

        impl TypedHatch<$Double> {
            /// Moves the origin to (x, y), as [`Hatch::move_origin`] does, in the tree. The counts are the tree's own, whatever was added to it or taken
            /// from it since; a tree that has no lists, with a bulge at some vertices alone, say, is refused ([`Reason::ListTooShort`](crate::Reason)).
            pub fn move_origin(&mut self, x: $Double, y: $Double) -> Result<(), Refusal> {
                let (words, mut numbers) = self.lists();
                let (paths, pattern_lines, seed_points) = (self.paths.len(), self.pattern_lines.len(), self.seed_points.len());
                let counts = Counts { paths, pattern_lines, seed_points, numbers_used: numbers.len() };
                let mut given = GivenHatch::from(&self.hatch);
                (given.num_paths, given.num_pattern_lines, given.num_seed_points) = (paths, pattern_lines, seed_points);
                (given.words_used, given.numbers_used) = (words.len(), numbers.len());
                given.move_origin(&words, &mut numbers, x, y)?;
                // What was moved is whole, so that the tree of it has every word and number.
                (self.paths, self.pattern_lines, self.seed_points) = Rest { words: &words, numbers: &numbers }.all(&counts).expect(OUTSIDE);
                Ok(())
            }
        }
    };
}

move_with_lists!(f64);
move_with_lists!(u64);

fn text(text: &Text) -> TextGiven {
    let source = match text.source {
        Source::None => 0,
        Source::Main => 1,
        Source::String => 2,
    };
    TextGiven { source, width: text.width, padded: u8::from(text.padded), position: text.position, count: text.count }
}

fn fields<Double>(hatch: &GivenHatch<Double>) -> FieldsGiven {
    FieldsGiven {
        pattern_name: text(&hatch.pattern_name),
        solid_fill: hatch.solid_fill,
        associative: hatch.associative,
        pattern_double: hatch.pattern_double,
        pattern_style: hatch.pattern_style,
        pattern_type: hatch.pattern_type,
        num_paths: hatch.num_paths,
        num_pattern_lines: hatch.num_pattern_lines,
        num_seed_points: hatch.num_seed_points,
        words_used: hatch.words_used,
        numbers_used: hatch.numbers_used,
    }
}

/// A refusal of such a call has places 0, which is looked at.
fn moved(answer: MoveAnswer) -> Result<(), Refusal> {
    assert_eq!((answer.place, answer.string_place), (0, 0), "{OUTSIDE}");
    match answer.refusal {
        0 => Ok(()),
        number @ 11..=13 => Err(Refusal::of_given_hatch(number)),
        _ => panic!("{OUTSIDE}"),
    }
}
