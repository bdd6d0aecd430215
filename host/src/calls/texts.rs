//! One text at a time: the payload's bytes and a place in, where the text lies and the place after it out.
//!
//! A text is handed over as document 01 has it, without characters: which payload, the bits of a unit, the bit position of the first unit
//! and the unit count; and whether a closing zero unit was dropped. [`Text::units`] takes the units out of the payload, [`Text::characters`]
//! makes a `String` of 16-bit ones. What character an 8-bit unit stands for hangs on the drawing's code page, which the caller knows
//! ([`CodePage`](crate::CodePage)).

use crate::boundary::ffi::{self, TextAnswer};
use super::codes::{reading, Reading, OUTSIDE};
use super::release::Release;

/// Which payload a text lies in.
#[derive(Clone, Copy, Debug, PartialEq, Eq)]
pub enum Source {
    /// In none: an absent gradient has no name.
    None,
    /// In the main payload, between the fields: inline text.
    Main,
    /// In the string payload, which a string reader reads.
    String,
}

/// Where a text lies, and whether it is padded.
#[derive(Clone, Copy, Debug, PartialEq, Eq)]
pub struct Text {
    /// The payload.
    pub source: Source,
    /// The bits of a unit: 8 or 16, or 0 of a text that lies in no payload.
    pub width: u8,
    /// The bit position of the first unit. Of an empty text it is the place after the length code, or the string reader's unmoved place.
    pub position: usize,
    /// How many units there are, without a closing zero unit that was dropped.
    pub count: usize,
    /// Whether a closing zero unit was dropped: some offices pad names with one. It is not counted, so one zero unit alone has the count 0 and is padded,
    /// and of two closing zeros one is counted. Not padded are a length of 0, a string reader at or past its end bit, and an absent gradient's name.
    pub padded: bool,
}

impl Text {
    /// The text that lies in no payload: an absent gradient's name.
    pub(crate) const NONE: Text = Text { source: Source::None, width: 0, position: 0, count: 0, padded: false };

    /// The text's units, as numbers, low byte first, from any bit of the payload that the text was read from.
    ///
    /// `None` if the units do not all lie in `payload`, which then is another one, or if there are units that are not 8 or 16 bits wide.
    /// Of an empty text there are no units to look for in any payload.
    ///
    /// ```
    /// let payload = [0x40, 0x90, 0x50, 0x80];
    /// let (text, _) = dwg_hatch::read_tv(&payload, 0, dwg_hatch::Release::R2000)?;
    /// assert_eq!(text.units(&payload), Some(vec![0x41, 0x42]));
    /// assert_eq!(text.units(&payload[..3]), None);
    /// # Ok::<(), dwg_hatch::Refusal>(())
    /// ```
    pub fn units(&self, payload: &[u8]) -> Option<Vec<u16>> {
        let unit = |index: usize| {
            let start = index.checked_mul(usize::from(self.width))?.checked_add(self.position)?;
            let low = byte(payload, start)?;
            match self.width {
                8 => Some(u16::from(low)),
                16 => Some(u16::from_le_bytes([low, byte(payload, start.checked_add(8)?)?])),
                _ => None,
            }
        };
        (0..self.count).map(unit).collect()
    }

    /// The characters of a text of 16-bit units. Nothing is lost or replaced, since a text whose units are not UTF-16 is refused.
    ///
    /// `None` if the text's units are not 16 bits wide, or if `payload` is another than the text was read from and holds no such text.
    ///
    /// ```
    /// use dwg_hatch::Release;
    /// let payload = [0x40, 0x8f, 0x76, 0x00, 0x37, 0x80];
    /// let (text, place) = dwg_hatch::read_tv(&payload, 0, Release::R2007)?;
    /// assert_eq!((text.width, text.count, place), (16, 2, 42));
    /// assert_eq!(text.characters(&payload).as_deref(), Some("\u{1f600}"));
    ///
    /// // The same bytes before R2007: their two units are bytes, and their characters are a code page's.
    /// let (text, place) = dwg_hatch::read_tv(&payload, 0, Release::R2004)?;
    /// assert_eq!((text.units(&payload), place), (Some(vec![0x3d, 0xd8]), 26));
    /// assert_eq!(text.characters(&payload), None);
    /// # Ok::<(), dwg_hatch::Refusal>(())
    /// ```
    pub fn characters(&self, payload: &[u8]) -> Option<String> {
        if self.width != 16 {
            return None;
        }
        String::from_utf16(&self.units(payload)?).ok()
    }
}

/// Inline text (TV) of a release: a BS length, then that many units of 8 bits before R2007, of 16 bits from it.
///
/// Refuses a payload above the limit ([`Reason::PayloadTooLong`](crate::Reason)), then a length or units that are cut short (`TooFewBits`), then
/// 16-bit units that are not UTF-16 (`NotUtf16`).
///
/// ```
/// use dwg_hatch::{Reason, Release, Source, Text};
/// let payload = [0x40, 0x90, 0x50, 0x80];
/// let text = Text { source: Source::Main, width: 8, position: 10, count: 2, padded: false };
/// assert_eq!(dwg_hatch::read_tv(&payload, 0, Release::R2000), Ok((text, 26)));
///
/// // The same with a zero unit behind it: the zero is dropped, and the text says so.
/// let padded = [0x40, 0xd0, 0x50, 0x80, 0x00];
/// assert_eq!(dwg_hatch::read_tv(&padded, 0, Release::R2000), Ok((Text { padded: true, ..text }, 34)));
///
/// let refusal = dwg_hatch::read_tv(&payload[..3], 0, Release::R2000).unwrap_err();
/// assert_eq!((refusal.reason, refusal.place), (Reason::TooFewBits, 18));
/// ```
pub fn read_tv(payload: &[u8], place: usize, release: Release) -> Reading<Text> {
    tv(payload, place, release.number())
}

/// The same by any number, as the boundary takes it.
fn tv(payload: &[u8], place: usize, release_number: u64) -> Reading<Text> {
    // SAFETY: the function of ffi.rs takes a slice as its pointer and length, reads no byte outside it whatever the numbers are, writes
    // nothing and keeps nothing. A slice's pointer is not null, also where the slice is empty.
    text(unsafe { ffi::dwg_read_tv(payload.as_ptr(), payload.len(), place, release_number) })
}

/// Text from a string reader that stands at `place` of its payload and ends at `end_bit`: 16-bit units at every release.
///
/// At or past the end bit it is empty and the place is not moved, also where the place is past the payload. Else a BS length, and the
/// units must end by the end bit (else `TextPastEnd`), but for length 0. A refusal's one place is the string payload's.
///
/// ```
/// use dwg_hatch::{Reason, Source, Text};
/// let payload = [0x40, 0x50, 0x40, 0x00];
/// let (text, place) = dwg_hatch::read_string_tv(&payload, 0, 26)?;
/// assert_eq!((text, place), (Text { source: Source::String, width: 16, position: 10, count: 1, padded: false }, 26));
/// assert_eq!(text.characters(&payload).as_deref(), Some("A"));
///
/// let refusal = dwg_hatch::read_string_tv(&payload, 0, 25).unwrap_err();
/// assert_eq!((refusal.reason, refusal.place), (Reason::TextPastEnd, 10));
/// # Ok::<(), dwg_hatch::Refusal>(())
/// ```
pub fn read_string_tv(payload: &[u8], place: usize, end_bit: usize) -> Reading<Text> {
    // SAFETY: see `tv`.
    text(unsafe { ffi::dwg_read_string_tv(payload.as_ptr(), payload.len(), place, end_bit) })
}

/// The text of an answer.
fn text(answer: TextAnswer) -> Reading<Text> {
    let source = source(answer.source, answer.width);
    let text = Text { source, width: answer.width, position: answer.position, count: answer.count, padded: answer.padded };
    reading(answer.refusal, answer.place, text)
}

/// A payload by its number. It and the width are looked at, so that a wrong declaration in ffi.rs cannot pass as a text.
pub(crate) fn source(number: u8, width: u8) -> Source {
    match (number, width) {
        (0, 0) => Source::None,
        (1, 8 | 16) => Source::Main,
        (2, 16) => Source::String,
        _ => panic!("{OUTSIDE}"),
    }
}

/// The eight bits from a bit on, if the payload has them.
fn byte(payload: &[u8], bit: usize) -> Option<u8> {
    let (index, shift) = (bit / 8, bit % 8);
    let first = *payload.get(index)?;
    if shift == 0 {
        return Some(first);
    }
    let second = *payload.get(index + 1)?;
    Some(first << shift | second >> (8 - shift))
}

#[cfg(test)]
mod tests {
    use super::*;

    /// What a call gives, as numbers: the text's width, position and count and the place after it, or the refusal's number and place.
    fn numbers(reading: Reading<Text>) -> Result<(u8, usize, usize, usize), (u64, usize)> {
        let found = reading.map(|(text, place)| (text.width, text.position, text.count, place));
        found.map_err(|refusal| (refusal.number(), refusal.place))
    }

    /// The bytes of a string of bits, with zeros up to the last byte's end.
    fn packed(bits: &str) -> Vec<u8> {
        let bits: Vec<u8> = bits.bytes().filter(|bit| *bit != b' ').map(|bit| bit - b'0').collect();
        bits.chunks(8).map(|bits| bits.iter().enumerate().fold(0, |byte, (at, bit)| byte | bit << (7 - at))).collect()
    }

    #[test]
    fn units_are_taken_at_every_bit_offset() {
        for offset in 0..=16 {
            let payload = packed(&format!("{} 01 00000010 00110100 00010010 11111111 11010111", "1".repeat(offset)));
            let (narrow, wide) = (tv(&payload, offset, 3).unwrap().0, tv(&payload, offset, 4).unwrap().0);
            assert_eq!((narrow.position, narrow.units(&payload)), (offset + 10, Some(vec![0x34, 0x12])));
            assert_eq!((wide.position, wide.units(&payload)), (offset + 10, Some(vec![0x1234, 0xd7ff])));
            assert_eq!(wide.characters(&payload).as_deref(), Some("\u{1234}\u{d7ff}"));
        }
    }

    #[test]
    fn a_number_that_is_no_release_is_refused() {
        assert_eq!(numbers(tv(&[0x40, 0x90, 0x50, 0x80], 0, 8)), Err((9, 0)));
    }

    #[test]
    fn length_256_has_a_tag_of_its_own() {
        let payload = [&[0xc0][..], &[0; 256]].concat();
        assert_eq!(numbers(tv(&payload, 0, 1)), Ok((8, 2, 255, 2050)));
        assert_eq!(tv(&payload, 0, 1).unwrap().0.units(&payload), Some(vec![0; 255]));
        assert_eq!(numbers(tv(&payload, 0, 4)), Err((1, 2050)));
    }

    #[test]
    fn a_string_reader_minds_its_end_bit() {
        let (one, none) = (packed("01 00000001 01000001 00000000"), packed("10"));
        assert_eq!(numbers(read_string_tv(&one, 0, 0)), Ok((16, 0, 0, 0)));
        assert_eq!(numbers(read_string_tv(&one, 9, 3)), Ok((16, 9, 0, 9)));
        assert_eq!(numbers(read_string_tv(&one, 0, 26)), Ok((16, 10, 1, 26)));
        assert_eq!(numbers(read_string_tv(&one, 0, usize::MAX)), Ok((16, 10, 1, 26)));
        assert_eq!(numbers(read_string_tv(&one, 0, 25)), Err((6, 10)));
        assert_eq!(numbers(read_string_tv(&one, 0, 1)), Err((6, 10)));
        // Length 0 is empty even if its code crosses the end bit.
        assert_eq!(numbers(read_string_tv(&none, 0, 1)), Ok((16, 2, 0, 2)));
        // Document 01's rows 6 and 7 of refusals.
        assert_eq!(numbers(read_string_tv(&[0x40, 0x40], 0, 16)), Err((6, 10)));
        assert_eq!(numbers(read_string_tv(&[0x40, 0x40, 0x36, 0x00], 0, 32)), Err((7, 26)));
    }

    /// Inline text of 8-bit and of 16-bit units and text from a string reader, each of these units: its count, whether it is padded, and that its place
    /// is behind all units that were laid out, the one that was dropped too.
    fn counted(units: &[u16]) -> [(usize, bool); 3] {
        let laid = |width: usize| {
            let bits: String = units.iter().map(|unit| format!("{:016b}", unit.swap_bytes())[..width].to_string()).collect();
            packed(&format!("01 {:08b} {bits} 11111111", units.len()))
        };
        let (narrow, wide, end) = (laid(8), laid(16), |width: u8| 10 + usize::from(width) * units.len());
        let read = [(8, tv(&narrow, 0, 3)), (16, tv(&wide, 0, 4)), (16, read_string_tv(&wide, 0, end(16)))];
        read.map(|(width, reading)| {
            let (text, place) = reading.expect("a text");
            assert_eq!((text.width, text.position, place), (width, 10, end(width)), "{units:x?}");
            (text.count, text.padded)
        })
    }

    #[test]
    fn a_closing_zero_unit_is_dropped_and_told() {
        assert_eq!(counted(&[0]), [(0, true); 3]);
        assert_eq!(counted(&[0x41, 0]), [(1, true); 3]);
        assert_eq!(counted(&[0x41]), [(1, false); 3]);
        // Of two closing zeros one is dropped, and a zero that does not close the text is none.
        assert_eq!(counted(&[0, 0]), [(1, true); 3]);
        assert_eq!(counted(&[0x41, 0, 0]), [(2, true); 3]);
        assert_eq!(counted(&[0, 0x41]), [(2, false); 3]);
        // A unit of 16 bits is zero where both its bytes are.
        assert_eq!(counted(&[0x4100])[1..], [(1, false); 2]);
    }

    /// A length of 0 in each of its codes, zeros behind it: nothing was dropped, also where the code crosses the string reader's end bit.
    #[test]
    fn a_length_of_0_is_not_padded() {
        for (code, place) in [("10", 2), ("01 00000000", 10), ("00 00000000 00000000", 18)] {
            let payload = packed(&format!("{code} {}", "0".repeat(64)));
            let readings = [tv(&payload, 0, 3), tv(&payload, 0, 4), read_string_tv(&payload, 0, 82), read_string_tv(&payload, 0, 1)];
            for reading in readings {
                let (text, end) = reading.expect("a text");
                assert_eq!((text.count, text.padded, text.position, end), (0, false, place, place), "{code}");
            }
        }
    }

    #[test]
    fn a_string_reader_at_its_end_gives_no_padded_text() {
        // One zero unit, which a reader with bits left would drop.
        let payload = packed(&format!("01 00000001 {}", "0".repeat(16)));
        assert!(read_string_tv(&payload, 0, 26).expect("a text").0.padded);
        for (place, end) in [(0, 0), (3, 3), (9, 3), (32, 32), (usize::MAX, 5)] {
            let (text, after) = read_string_tv(&payload, place, end).expect("a text");
            assert_eq!((text.count, text.padded, text.position, after), (0, false, place, place), "{place}");
        }
    }

    #[test]
    fn an_end_bit_past_the_payload_gives_no_bits() {
        assert_eq!(numbers(read_string_tv(&[0x40, 0x40], 0, 1000)), Err((1, 10)));
        assert_eq!(numbers(read_string_tv(&[], 0, 1)), Err((1, 0)));
        assert_eq!(numbers(read_string_tv(&[], 5, 9)), Err((1, 5)));
        let (text, place) = read_string_tv(&[], 5, 5).unwrap();
        assert_eq!((text.source, text.position, place), (Source::String, 5, 5));
        assert_eq!((text.units(&[]), text.characters(&[])), (Some(vec![]), Some(String::new())));
    }

    #[test]
    fn texts_made_by_hand_are_looked_for_within_the_payload() {
        let text = |width, position, count| Text { source: Source::Main, width, position, count, padded: false };
        let bytes = [0x00, 0xd8];
        assert_eq!(text(16, 0, 1).units(&bytes), Some(vec![0xd800]));
        assert_eq!(text(16, 0, 1).characters(&bytes), None);
        for empty in [text(0, 0, 0), text(7, 99, 0), text(8, usize::MAX, 0)] {
            assert_eq!(empty.units(&bytes), Some(vec![]), "{empty:?}");
        }
        let past = [text(16, 1, 1), text(8, 9, 1), text(8, 0, 3), text(16, usize::MAX, 1), text(16, 0, usize::MAX)];
        for other in past.iter().chain(&[text(7, 0, 1), text(0, 0, usize::MAX)]) {
            assert_eq!(other.units(&bytes), None, "{other:?}");
        }
    }
}
