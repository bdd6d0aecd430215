//! Hatch bodies: the payloads' bytes, their start bits and a release in; the record, the two lists and the places after them out.
//!
//! [`HatchBody::decode`] reads a body into lists that it makes. A caller that has lists of its own asks how long they must be
//! ([`HatchBody::measure`]) and lends them ([`HatchBody::decode_into`]); lists that are too short are refused and left as they were.
//!
//! A payload may hold any 64 bits as a double. The calls named `bits` hand over those bits; the others hand over an `f64`, which promises
//! no NaN's pattern.

use crate::boundary::ffi;
pub use super::hatch_record::{GradientColor, GradientFill, Hatch, Lengths, Places, ReadHatch};
use super::hatch_record::{color, fill, hatch};
use super::kept;
use super::refusal::Refusal;
use super::release::Release;

/// A string reader that is lent to a call: the texts of a hatch come from it, at every release.
#[derive(Clone, Copy, Debug, PartialEq, Eq)]
pub struct StringReader<'a> {
    /// The string payload.
    pub payload: &'a [u8],
    /// Its start bit: any bit of the payload, its length in bits included. It is compared once with that length, so a start at the end of a large payload
    /// costs what one at bit 0 does. Proved (crates/hatch_format/proofs/Starts.antt): the reader stands at every such start, and the refusal past it is the
    /// same for every payload of that length.
    pub start: usize,
    /// Its end bit: any number. At or past it every text is empty.
    pub end: usize,
}

/// Where a hatch body lies.
///
/// ```
/// use dwg_hatch::{HatchBody, Reason, Release};
/// let body = HatchBody::new(&[0xa9, 0xaa, 0xa0], 0, Release::R2000);
/// let read = body.decode()?;
/// assert_eq!((read.hatch.elevation, read.hatch.num_paths, read.hatch.places.main), (0.0, 0, 20));
/// assert!(read.words.is_empty() && read.numbers.is_empty());
///
/// // R2004 has a gradient first, for which there are too few bits.
/// let refusal = HatchBody::new(body.payload, 0, Release::R2004).decode().unwrap_err();
/// assert_eq!((refusal.reason, refusal.place), (Reason::TooFewBits, 22));
/// # Ok::<(), dwg_hatch::Refusal>(())
/// ```
#[derive(Clone, Copy, Debug, PartialEq, Eq)]
pub struct HatchBody<'a> {
    /// The main payload.
    pub payload: &'a [u8],
    /// Its start bit.
    pub start: usize,
    /// The release's number. It may be any; one that is not 1 to 7 is refused ([`Reason::UnknownRelease`](crate::Reason)).
    pub release_number: u64,
    /// The string reader, if one is lent; else texts are inline.
    pub strings: Option<StringReader<'a>>,
}

/// Calls the entry without or with a string reader, and makes a [`Hatch`] of its answer. It is a macro because the structs of an answer
/// with f64 and of one with bits are two types with the same fields.
macro_rules! decode {
    ($body:expr, $numbers:expr, $words:expr, $decode:path, $decode_with_strings:path) => {{
        let (bytes, length, at, release) = ($body.payload.as_ptr(), $body.payload.len(), $body.start, $body.release_number);
        let (n, nn, w, nw) = ($numbers.as_mut_ptr(), $numbers.len(), $words.as_mut_ptr(), $words.len());
        let a = match $body.strings {
            // SAFETY: see the calls' common note below.
            None => unsafe { $decode(bytes, length, at, release, n, nn, w, nw) },
            // SAFETY: see there.
            Some(StringReader { payload: s, start, end }) => unsafe {
                $decode_with_strings(bytes, length, at, s.as_ptr(), s.len(), start, end, release, n, nn, w, nw)
            },
        };
        let places = Places { main: a.place, string: a.string_place };
        $body.accepted(a.refusal, places)?;
        let (extrusion, g) = ([a.extrusion_x, a.extrusion_y, a.extrusion_z], a.gradient);
        let colors = g.colors.map(|c| color(c.unknown_double, c.unknown_short, c.rgb, c.ignored_color_byte));
        let fill = fill(g.present, [g.angle, g.shift, g.tint], g.is_single_color, (colors, g.num_colors), &g.name);
        let doubles = [a.elevation, a.pattern_angle, a.pattern_scale, a.pixel_size];
        Ok(hatch(fill, extrusion, doubles, a.fields, places))
    }};
}

// SAFETY, of every call below and of `decode!`: a function of ffi.rs takes a slice as its pointer and length, reads no byte outside a
// payload whatever the numbers are, writes nothing but its answer and entries of the two lists, which are lent for writing and lie apart,
// and keeps nothing. A slice's pointer is not null, also where the slice is empty.
impl<'a> HatchBody<'a> {
    /// A body of a release that starts at a bit of a payload, its texts inline.
    pub fn new(payload: &'a [u8], start: usize, release: Release) -> HatchBody<'a> {
        HatchBody { payload, start, release_number: release.number(), strings: None }
    }

    /// The same body with a string reader, which all its texts come from.
    pub fn with_strings(self, strings: StringReader<'a>) -> HatchBody<'a> {
        HatchBody { strings: Some(strings), ..self }
    }

    /// The lengths that the lists must have. Refuses as [`HatchBody::decode_into`] does, but never for a list.
    ///
    /// Proved (crates/hatch/specs/Measuring.antt, `measures` and `never_short`): where measuring reads, [`HatchBody::decode_into`] with lists of these
    /// lengths or longer reads the same hatch with the same final places, and with a shorter list it is refused (`ListTooShort`) at these places; where
    /// measuring is refused, every such call is, with the same reason and places.
    ///
    /// ```
    /// let bytes = [&[0xa9, 0xaa, 0x90, 0x10][..], &[0; 16]].concat();
    /// let lengths = dwg_hatch::HatchBody::new(&bytes, 0, dwg_hatch::Release::R2000).measure()?;
    /// assert_eq!((lengths.words, lengths.numbers, lengths.places.main), (0, 2, 156));
    /// # Ok::<(), dwg_hatch::Refusal>(())
    /// ```
    pub fn measure(&self) -> Result<Lengths, Refusal> {
        let (bytes, length) = (self.payload.as_ptr(), self.payload.len());
        let answer = match self.strings {
            // SAFETY: see above.
            None => unsafe { ffi::dwg_hatch_measure(bytes, length, self.start, self.release_number) },
            // SAFETY: see above.
            Some(StringReader { payload: s, start, end }) => unsafe {
                ffi::dwg_hatch_measure_with_strings(bytes, length, self.start, s.as_ptr(), s.len(), start, end, self.release_number)
            },
        };
        let places = Places { main: answer.place, string: answer.string_place };
        self.accepted(answer.refusal, places)?;
        Ok(Lengths { words: answer.words, numbers: answer.numbers, places })
    }

    /// The body, with lists that are as long as it needs them.
    pub fn decode(&self) -> Result<ReadHatch, Refusal> {
        kept::read(self, ReadHatch::of)
    }

    /// The same with each double as its 64 bits.
    pub fn decode_bits(&self) -> Result<ReadHatch<u64>, Refusal> {
        kept::read(self, ReadHatch::of)
    }

    /// The body, with lent lists. Entries past the lengths used are left as they were, and on a refusal all are.
    ///
    /// Refuses a release that is not 1 to 7 ([`Reason::UnknownRelease`](crate::Reason)), then a payload above the limit (`PayloadTooLong`), then a
    /// string start past its payload (`TooFewBits`), then as the fields do, in their order (`TooFewBits`, `ReservedTag`, `CountTooLarge`, `EdgeKind`,
    /// `TextPastEnd`, `NotUtf16`), and last lists that are too short (`ListTooShort`).
    ///
    /// ```
    /// let bytes = [&[0xa9, 0xaa, 0x90, 0x10][..], &[0; 16]].concat();
    /// let body = dwg_hatch::HatchBody::new(&bytes, 0, dwg_hatch::Release::R2000);
    /// let mut short = [7.0];
    /// let refusal = body.decode_into(&mut short, &mut []).unwrap_err();
    /// assert_eq!((refusal.reason, refusal.place, short), (dwg_hatch::Reason::ListTooShort, 156, [7.0]));
    ///
    /// let mut long = [7.0; 3];
    /// let hatch = body.decode_into(&mut long, &mut [])?;
    /// assert_eq!((hatch.num_seed_points, hatch.numbers_used, long), (1, 2, [0.0, 0.0, 7.0]));
    /// # Ok::<(), dwg_hatch::Refusal>(())
    /// ```
    pub fn decode_into(&self, numbers: &mut [f64], words: &mut [u32]) -> Result<Hatch, Refusal> {
        decode!(self, numbers, words, ffi::dwg_hatch_decode, ffi::dwg_hatch_decode_with_strings)
    }

    /// The same with each double as its 64 bits.
    pub fn decode_bits_into(&self, bits: &mut [u64], words: &mut [u32]) -> Result<Hatch<u64>, Refusal> {
        decode!(self, bits, words, ffi::dwg_hatch_decode_bits, ffi::dwg_hatch_decode_with_strings_bits)
    }

    fn accepted(&self, number: u64, places: Places) -> Result<(), Refusal> {
        match number {
            0 => Ok(()),
            // A second place before the start: no reader stood in the payload, so no field was read (crates/hatch_format/proofs/Demand3.antt, `final_places`).
            1 if self.strings.is_some_and(|strings| places.string < strings.start) => Err(Refusal::of_string_start(places.main, places.string)),
            number => Err(Refusal::of_reading(number, places.main, places.string)),
        }
    }
}

#[cfg(test)]
mod tests {
    use super::*;
    use crate::calls::texts::Source;

    const READER: StringReader<'static> = StringReader { payload: &[0x40, 0x50, 0x40, 0x00], start: 0, end: 26 };

    #[test]
    fn both_entries_refuse_alike_and_leave_the_lists() {
        let cases = [(&[0xc0][..], 3, 2, 2), (&[0xa9, 0xa7, 0xfc], 2, 3, 22), (&[], 2, 1, 0), (&[0xa9], 8, 9, 0)];
        for (payload, release, number, place) in cases {
            let refusal = Refusal::of_reading(number, place, 0);
            let body = HatchBody { payload, start: 0, release_number: release, strings: None };
            assert_eq!(body.measure(), Err(refusal));
            let (mut numbers, mut bits, mut words) = ([1.0; 2], [1; 2], [1; 2]);
            assert_eq!(body.decode_into(&mut numbers, &mut words), Err(refusal));
            assert_eq!(body.decode_bits_into(&mut bits, &mut words), Err(refusal));
            assert_eq!((numbers, bits, words), ([1.0; 2], [1; 2], [1; 2]));
        }
    }

    /// A start past the string payload is told apart from too few bits at its end, by every call.
    #[test]
    fn a_string_start_past_its_payload_is_named() {
        let refused = |start, end| {
            let body = HatchBody::new(&[0xa9, 0xaa, 0xa0], 0, Release::R2000).with_strings(StringReader { start, end, ..READER });
            let refusal = body.measure().unwrap_err();
            assert_eq!(body.decode_into(&mut [], &mut []), Err(refusal));
            assert_eq!(body.decode_bits_into(&mut [], &mut []), Err(refusal));
            refusal
        };
        let (at_the_end, past) = (refused(32, 33), refused(33, 33));
        assert_eq!((at_the_end.place, at_the_end.second_place, at_the_end.meaning()), (8, 32, at_the_end.reason.meaning()));
        assert_eq!((past.reason, past.place, past.second_place), (at_the_end.reason, 0, 32));
        assert!(past.to_string().starts_with("refusal 1 at bit 0 of the main payload and bit 32 of the string payload: the string reader's start bit lies "));
        assert_eq!(refused(usize::MAX, 0), past);
    }

    #[test]
    fn a_string_reader_serves_the_name() {
        // Without a reader the inline text would start at bit 8.
        let body = HatchBody::new(&[0xa9, 0xaa, 0xa0], 0, Release::R2000).with_strings(READER);
        let read = body.decode().unwrap().hatch;
        assert_eq!(read.places.string, 26);
        assert_eq!((read.pattern_name.source, read.pattern_name.characters(READER.payload).as_deref()), (Source::String, Some("A")));
    }
}
