//! Where texts lie. The Rust hands texts over as Strings, so their places are found by a second walk over the same
//! bits with the Rust's own cursor methods; the walk is checked against the Rust's Strings and final places.

use crate::bitcursor::BitCursor;
use crate::error::Result;
use crate::version::Version;

/// Document 01: (main or string payload, unit width, bit position of the first unit, units), the units as they were laid out. Length 0, and
/// a reader at or past its end bit, have none.
#[derive(Debug)]
pub struct Text {
    pub source: char,
    pub width: usize,
    pub position: usize,
    laid: Vec<u16>,
}

impl Text {
    /// Document 02: whether a closing zero unit was dropped.
    pub fn padded(&self) -> bool {
        matches!(self.laid[..], [.., 0])
    }

    /// Document 01: one closing zero unit is dropped, not more.
    pub fn units(&self) -> &[u16] {
        match &self.laid[..] {
            [kept @ .., 0] => kept,
            all => all,
        }
    }
}

/// Inline text: 8-bit units before release 4, else 16-bit ones.
pub fn inline(c: &mut BitCursor<'_>, version: Version) -> Result<Text> {
    let length = c.read_bs_u()?;
    let width = if version.is_r2007_plus() { 16 } else { 8 };
    units('m', width, length, c)
}

/// Text from a string reader with this end bit.
pub fn from_reader(c: &mut BitCursor<'_>, end: usize) -> Result<Text> {
    let at_the_end = c.position_bits() >= end;
    let length = if at_the_end { 0 } else { c.read_bs_u()? };
    units('s', 16, length, c)
}

fn units(source: char, width: usize, length: u16, c: &mut BitCursor<'_>) -> Result<Text> {
    let position = c.position_bits();
    let mut laid = Vec::new();
    for _ in 0..length {
        let low = u16::from(c.read_rc()?);
        let high = if width == 16 { u16::from(c.read_rc()?) } else { 0 };
        laid.push(high << 8 | low);
    }
    Ok(Text { source, width, position, laid })
}

/// Both texts of a hatch that was read, and the string cursor's final place.
pub struct HatchTexts {
    pub gradient: Option<Text>,
    pub pattern: Text,
    pub string_place: usize,
}

/// The second walk: up to the pattern name, the last text of a body.
pub fn hatch_texts(
    mut c: BitCursor<'_>,
    mut strings: Option<(BitCursor<'_>, usize)>,
    version: Version,
) -> Result<HatchTexts> {
    let mut gradient = None;
    if version.is_r2004_plus() {
        skip_gradient_fields(&mut c)?;
        gradient = Some(field(&mut c, &mut strings, version)?);
    }
    for _ in 0..4 {
        c.read_bd()?;
    }
    let pattern = field(&mut c, &mut strings, version)?;
    let string_place = strings.map_or(0, |(s, _)| s.position_bits());
    Ok(HatchTexts { gradient, pattern, string_place })
}

fn field(c: &mut BitCursor<'_>, strings: &mut Option<(BitCursor<'_>, usize)>, version: Version) -> Result<Text> {
    match strings {
        Some((s, end)) => from_reader(s, *end),
        None => inline(c, version),
    }
}

fn skip_gradient_fields(c: &mut BitCursor<'_>) -> Result<()> {
    c.read_bl_u()?;
    c.read_bl()?;
    c.read_bd()?;
    c.read_bd()?;
    c.read_bl_u()?;
    c.read_bd()?;
    for _ in 0..c.read_bl_u()? {
        c.read_bd()?;
        c.read_bs()?;
        c.read_bl_u()?;
        c.read_rc()?;
    }
    Ok(())
}

/// The oracle's check of itself. The Rust's characters have one zero fewer than was laid out where the text is padded, and as many where it is
/// not; a zero is a character of its own beside any byte. And the units of the second walk are the Rust's characters; by document 01, 8-bit text
/// is compared so where all bytes are below 80 (hexadecimal), since above that the Rust's characters hang on a code page.
pub fn check(text: &Text, rust: &str) {
    let laid = text.laid.iter().filter(|unit| **unit == 0).count();
    let kept = rust.chars().filter(|character| *character == '\0').count();
    assert_eq!(laid, kept + usize::from(text.padded()), "zeros of {text:?} where the Rust read {rust:?}");
    if text.width == 8 && text.laid.iter().any(|unit| *unit >= 0x80) {
        return;
    }
    let same = rust.encode_utf16().eq(text.units().iter().copied());
    assert!(same, "the second walk found {text:?} where the Rust read {rust:?}");
}
