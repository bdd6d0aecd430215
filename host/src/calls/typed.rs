//! Whole hatches in one call: the record, the tree of paths, pattern lines and seed points, and the names.
//!
//! [`read_hatch`] and [`read_hatch_with_strings`] give doubles as `f64`; [`HatchBody::read_bits`] gives each as its 64 bits.

use super::codes::OUTSIDE;
use super::hatches::{Hatch, HatchBody, ReadHatch, StringReader};
use super::kept;
use super::outline_lists::{Counts, Filled, Rest};
use super::outlines::{HatchPath, PatternLine, Point2D};
use super::refusal::Refusal;
use super::release::Release;
use super::texts::{Source, Text};

/// A text taken out of its payload. Where it lies, and whether it is padded, is in the record.
#[derive(Clone, Debug, PartialEq, Eq, Hash)]
pub enum Name {
    /// 8-bit units: inline text before release 4. What characters they are hangs on the drawing's code page ([`Name::decoded`]).
    Bytes(Vec<u8>),
    /// 16-bit units, which are UTF-16.
    Characters(String),
}

impl Name {
    /// The text as characters: of 16-bit units always, of 8-bit ones if all are below 80 (hexadecimal), where they are ASCII.
    ///
    /// ```
    /// use dwg_hatch::Name;
    /// assert_eq!(Name::Bytes(b"SOLID".to_vec()).as_str(), Some("SOLID"));
    /// assert_eq!(Name::Bytes(vec![0xe9]).as_str(), None);
    /// assert_eq!(Name::Characters("\u{e9}".to_string()).as_str(), Some("\u{e9}"));
    /// ```
    pub fn as_str(&self) -> Option<&str> {
        match self {
            Name::Bytes(bytes) if bytes.is_ascii() => std::str::from_utf8(bytes).ok(),
            Name::Bytes(_) => None,
            Name::Characters(characters) => Some(characters),
        }
    }

    /// Whether two names are the same, so that a pattern which some offices pad with a zero is not filed twice. A closing zero unit that was dropped is no
    /// part of a `Name`: whether there was one stands in the record, as [`Text::padded`]. So two names that differ in padding alone are the same.
    ///
    /// Names are compared by their characters, whatever the bits of a unit: 8-bit units that are all below 80 (hexadecimal) are ASCII, and the same name as
    /// the 16-bit units of these characters. Other 8-bit units are characters of a code page that is not in the body: such a name is the same as another of
    /// the very same units alone. [`Name::is_same_name_in`] compares where the page is known.
    ///
    /// ```
    /// use dwg_hatch::{read_hatch, Release};
    /// // Three hatches of R2000, whose pattern names are laid out as NET, as NET with a zero behind it, and as NET with two.
    /// let plain = read_hatch(&[0xa9, 0x40, 0xd3, 0x91, 0x55, 0x2a, 0xa0], 0, Release::R2000)?;
    /// let padded = read_hatch(&[0xa9, 0x41, 0x13, 0x91, 0x55, 0x00, 0x2a, 0xa0], 0, Release::R2000)?;
    /// let twice = read_hatch(&[0xa9, 0x41, 0x53, 0x91, 0x55, 0x00, 0x00, 0x2a, 0xa0], 0, Release::R2000)?;
    ///
    /// assert_eq!((plain.hatch.pattern_name.padded, padded.hatch.pattern_name.padded), (false, true));
    /// assert!(plain.pattern_name.is_same_name(&padded.pattern_name));
    ///
    /// // Only one zero is dropped, so a name with a second closing zero is another one.
    /// assert_eq!((twice.pattern_name.as_str(), twice.hatch.pattern_name.padded), (Some("NET\0"), true));
    /// assert!(!plain.pattern_name.is_same_name(&twice.pattern_name));
    /// # Ok::<(), dwg_hatch::Refusal>(())
    /// ```
    pub fn is_same_name(&self, other: &Name) -> bool {
        match (self.as_str(), other.as_str()) {
            (Some(one), Some(other)) => one == other,
            // Of two without known characters both are 8-bit units, and equal where these are.
            (None, None) => self == other,
            _ => false,
        }
    }
}

/// A hatch with its two lists as a tree, and its names taken out of their payloads. Every word and number of the lists is in the tree.
#[derive(Clone, Debug, PartialEq)]
pub struct TypedHatch<Double = f64> {
    /// The record: all that is not in the lists, where the names lie, and the final places.
    pub hatch: Hatch<Double>,
    /// The pattern's name.
    pub pattern_name: Name,
    /// The gradient's name, if there is a gradient.
    pub gradient_name: Option<Name>,
    /// The boundary paths.
    pub paths: Vec<HatchPath<Double>>,
    /// The pattern lines; none where the hatch is solid.
    pub pattern_lines: Vec<PatternLine<Double>>,
    /// The seed points.
    pub seed_points: Vec<Point2D<Double>>,
}

impl<Double: Copy> TypedHatch<Double> {
    /// The words and the numbers of the tree, in reading order: of a hatch that was read, the very lists that it was read into.
    ///
    /// ```
    /// let payload = [&[0xa9, 0xaa, 0x90, 0x10][..], &[0; 16]].concat();
    /// let typed = dwg_hatch::read_hatch(&payload, 0, dwg_hatch::Release::R2000)?;
    /// assert_eq!(typed.seed_points, [dwg_hatch::Point2D { x: 0.0, y: 0.0 }]);
    /// assert_eq!(typed.lists(), (vec![], vec![0.0, 0.0]));
    /// # Ok::<(), dwg_hatch::Refusal>(())
    /// ```
    pub fn lists(&self) -> (Vec<u32>, Vec<Double>) {
        let mut filled = Filled { words: Vec::new(), numbers: Vec::new() };
        self.paths.iter().for_each(|path| filled.path(path));
        self.pattern_lines.iter().for_each(|line| filled.pattern_line(line));
        filled.points(&self.seed_points);
        (filled.words, filled.numbers)
    }
}

/// The hatch body of a release, its texts inline.
///
/// ```
/// use dwg_hatch::{HatchPathSegments, Point2D, Release};
/// # let bytes = |digits: &str| (0..digits.len()).step_by(2).map(|at| u8::from_str_radix(&digits[at..at + 2], 16).unwrap()).collect::<Vec<u8>>();
/// // A solid hatch of R2000 with one path: the corners (0, 0), (2.5, 0), (0, 1.5), closed.
/// let payload = bytes(concat!(
///     "a94154d3d31251240503503000000000000000000000000000000000000000000000",
///     "44000000000000000000000000000000000000000000000f83fa4060",
/// ));
/// let typed = dwg_hatch::read_hatch(&payload, 0, Release::R2000)?;
/// assert_eq!(typed.pattern_name.as_str(), Some("SOLID"));
/// assert_eq!((typed.hatch.solid_fill, typed.hatch.extrusion, typed.hatch.places.main), (true, [0.0, 0.0, 1.0], 492));
///
/// let HatchPathSegments::Polyline { is_closed: true, vertices, .. } = &typed.paths[0].segments else { panic!("no closed polyline") };
/// let corners: Vec<Point2D> = vertices.iter().map(|vertex| vertex.point).collect();
/// assert_eq!(corners, [Point2D { x: 0.0, y: 0.0 }, Point2D { x: 2.5, y: 0.0 }, Point2D { x: 0.0, y: 1.5 }]);
///
/// let refusal = dwg_hatch::read_hatch(&payload[..60], 0, Release::R2000).unwrap_err();
/// assert_eq!(
///     refusal.to_string(),
///     "refusal 1 at bit 480: too few bits are left for the next read; check that the payload is whole, the release and the start bit"
/// );
/// # Ok::<(), dwg_hatch::Refusal>(())
/// ```
pub fn read_hatch(payload: &[u8], start: usize, release: Release) -> Result<TypedHatch, Refusal> {
    HatchBody::new(payload, start, release).read()
}

/// The same with a string reader, which all texts come from.
///
/// ```
/// use dwg_hatch::{Name, Reason, Release, StringReader};
/// let strings = StringReader { payload: &[0x40, 0x50, 0x40, 0x00], start: 0, end: 26 };
/// let typed = dwg_hatch::read_hatch_with_strings(&[0xa9, 0xaa, 0xa0], 0, Release::R2000, strings)?;
/// assert_eq!((typed.pattern_name, typed.hatch.places.string), (Name::Characters("A".to_string()), 26));
///
/// let cut = StringReader { end: 25, ..strings };
/// let refusal = dwg_hatch::read_hatch_with_strings(&[0xa9, 0xaa, 0xa0], 0, Release::R2000, cut).unwrap_err();
/// assert_eq!((refusal.reason, refusal.place, refusal.second_place), (Reason::TextPastEnd, 8, 10));
/// # Ok::<(), dwg_hatch::Refusal>(())
/// ```
pub fn read_hatch_with_strings(payload: &[u8], start: usize, release: Release, strings: StringReader) -> Result<TypedHatch, Refusal> {
    HatchBody::new(payload, start, release).with_strings(strings).read()
}

impl HatchBody<'_> {
    /// The body as a tree.
    pub fn read(&self) -> Result<TypedHatch, Refusal> {
        kept::read(self, |hatch, words, numbers| self.tree(hatch, words, numbers).expect(OUTSIDE))
    }

    /// The same with each double as its 64 bits, a NaN's too.
    ///
    /// ```
    /// // A seed point whose x is a NaN with a pattern of its own, and whose y is minus zero.
    /// let payload = [0xa9, 0xaa, 0x90, 0x10, 0x10, 0, 0, 0, 0, 0x0f, 0x07, 0xf0, 0, 0, 0, 0, 0, 0, 0x08, 0];
    /// let seeds = dwg_hatch::HatchBody::new(&payload, 0, dwg_hatch::Release::R2000).read_bits()?.seed_points;
    /// assert_eq!(seeds, [dwg_hatch::Point2D { x: 0x7ff0_0000_0000_0001, y: 1 << 63 }]);
    /// # Ok::<(), dwg_hatch::Refusal>(())
    /// ```
    pub fn read_bits(&self) -> Result<TypedHatch<u64>, Refusal> {
        kept::read(self, |hatch, words, numbers| self.tree(hatch, words, numbers).expect(OUTSIDE))
    }

    /// What was read from this body, as a tree. `None` if the lists do not fit the record, or a text does not lie in its payload: what
    /// another body gave, or what was altered since.
    ///
    /// ```
    /// let body = dwg_hatch::HatchBody::new(&[0xa9, 0xaa, 0xa0], 0, dwg_hatch::Release::R2000);
    /// let mut read = body.decode()?;
    /// assert!(body.typed(read.clone()).is_some());
    /// read.words.push(0);
    /// assert!(body.typed(read).is_none());
    /// # Ok::<(), dwg_hatch::Refusal>(())
    /// ```
    pub fn typed<Double: Copy>(&self, read: ReadHatch<Double>) -> Option<TypedHatch<Double>> {
        self.tree(read.hatch, &read.words, &read.numbers)
    }

    /// The same of lists that lie elsewhere. What a call over this body gave fits by the library's contract; if it does not, no answer is better than
    /// a wrong one.
    fn tree<Double: Copy>(&self, hatch: Hatch<Double>, words: &[u32], numbers: &[Double]) -> Option<TypedHatch<Double>> {
        let (paths, pattern_lines, seed_points) = Rest { words, numbers }.all(&Counts::from(&hatch))?;
        let pattern_name = self.name(&hatch.pattern_name)?;
        let gradient_name = match &hatch.gradient {
            Some(fill) => Some(self.name(&fill.name)?),
            None => None,
        };
        Some(TypedHatch { hatch, pattern_name, gradient_name, paths, pattern_lines, seed_points })
    }

    /// The payload that a text of this body lies in; `None` for a text of a string reader that the body does not have.
    pub fn payload_of(&self, text: &Text) -> Option<&[u8]> {
        match text.source {
            Source::None => Some(&[]),
            Source::Main => Some(self.payload),
            Source::String => self.strings.map(|strings| strings.payload),
        }
    }

    fn name(&self, text: &Text) -> Option<Name> {
        let payload = self.payload_of(text)?;
        if text.width == 16 {
            return text.characters(payload).map(Name::Characters);
        }
        let units = text.units(payload)?;
        units.into_iter().map(|unit| u8::try_from(unit).ok()).collect::<Option<_>>().map(Name::Bytes)
    }
}
