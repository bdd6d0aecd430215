//! Why a reading stopped, or a call gave nothing.

use std::fmt;

use super::codes::OUTSIDE;

/// Why a reading stopped, or a call gave nothing: a row of docs/REFUSALS.md, by the names of dwg_hatch_codes.h.
#[derive(Clone, Copy, Debug, PartialEq, Eq, Hash)]
#[non_exhaustive]
pub enum Reason {
    /// Too few bits are left for the next read.
    TooFewBits = 1,
    /// A BL or BD starts with the tag 11, which stands for no number.
    ReservedTag = 2,
    /// A count is above its cap, or above the bits that are left.
    CountTooLarge = 3,
    /// An edge's kind is not 1 to 4.
    EdgeKind = 4,
    /// A handle's counter is above 8.
    HandleCounter = 5,
    /// A text of the string payload passes the string reader's end bit.
    TextPastEnd = 6,
    /// A text's 16-bit units are not UTF-16.
    NotUtf16 = 7,
    /// There are 256 nonzero XDATA blocks.
    TooManyXdataBlocks = 8,
    /// The release's number is not 1 to 7. A call that takes a [`Release`](crate::Release) never gives it.
    UnknownRelease = 9,
    /// A payload is longer than 268,435,456 bytes.
    PayloadTooLong = 10,
    /// The hatch is readable, but a lent list is too short for it. Of a call that takes a hatch: record and lists do not fit each other. Of a call that
    /// converts a text: the output is shorter than the input.
    ListTooShort = 11,
    /// The extrusion is not (0, 0, 1), so that the hatch does not lie in the drawing's own plane.
    OtherPlane = 12,
    /// The origin or a coordinate to be moved is not a number from -2^40 to 2^40.
    CoordinateOutOfRange = 13,
    /// A byte stands for no character in code page 1252; on the way back, a unit is none of its characters.
    UndefinedCharacter = 14,
}

/// What number 11 means where a hatch was read, where one was handed over, and where a text was converted.
const SHORT: [&str; 2] = ["the hatch is readable, but a lent list is too short for it", "lend longer lists and read again"];
const UNFIT: [&str; 2] = [
    "record and lists do not fit each other: a count is above its cap, a switch is not 0 or 1, an edge's kind is not 1 to 4, or the counts do not come to \
     the lengths used",
    "hand over record and lists as they were read; doubles alone may be altered",
];
const NARROW: [&str; 2] = ["the output is shorter than the input", "lend an output that is as long as the input"];

/// What number 1 means where no field was come to, since the string reader does not stand in its payload.
const STRING_START_PAST: [&str; 2] = [
    "the string reader's start bit lies past the string payload, which ends there",
    "check the string start, and that the string payload is whole and is the one that the start is counted in",
];

const CHECK: &str = "check the release and the start bit, else the payload is damaged";

impl Reason {
    /// Every row of the table, in its order. A test looks that the C header has the same.
    const ALL: [Reason; 14] = [
        Reason::TooFewBits,
        Reason::ReservedTag,
        Reason::CountTooLarge,
        Reason::EdgeKind,
        Reason::HandleCounter,
        Reason::TextPastEnd,
        Reason::NotUtf16,
        Reason::TooManyXdataBlocks,
        Reason::UnknownRelease,
        Reason::PayloadTooLong,
        Reason::ListTooShort,
        Reason::OtherPlane,
        Reason::CoordinateOutOfRange,
        Reason::UndefinedCharacter,
    ];

    /// The row's number, which the line protocol and the C boundary have.
    ///
    /// ```
    /// assert_eq!(dwg_hatch::Reason::UnknownRelease.number(), 9);
    /// ```
    pub fn number(self) -> u64 {
        self as u64
    }

    /// The row of a number that the library gave.
    pub(crate) fn of(number: u64) -> Reason {
        Reason::ALL.into_iter().find(|reason| reason.number() == number).unwrap_or_else(|| panic!("{OUTSIDE}"))
    }

    /// What it means, in a few words.
    ///
    /// ```
    /// assert_eq!(dwg_hatch::Reason::UnknownRelease.meaning(), "the release is not 1 to 7");
    /// ```
    pub fn meaning(self) -> &'static str {
        match self {
            Reason::TooFewBits => "too few bits are left for the next read",
            Reason::ReservedTag => "a BL or BD starts with the tag 11, which stands for no number",
            Reason::CountTooLarge => "a count is above its cap, or above the bits that are left",
            Reason::EdgeKind => "an edge's kind is not 1 to 4",
            Reason::HandleCounter => "a handle's counter is above 8",
            Reason::TextPastEnd => "a text of the string payload passes the string reader's end bit",
            Reason::NotUtf16 => "a text's 16-bit units are not UTF-16",
            Reason::TooManyXdataBlocks => "there are 256 nonzero XDATA blocks, which is more than are read",
            Reason::UnknownRelease => "the release is not 1 to 7",
            Reason::PayloadTooLong => "a payload is longer than 268,435,456 bytes",
            Reason::ListTooShort => "a lent list is too short for the hatch or the converted text, or record and lists do not fit each other",
            Reason::OtherPlane => "the hatch's extrusion is not (0, 0, 1), so it does not lie in the drawing's own plane",
            Reason::CoordinateOutOfRange => "the origin or a coordinate to be moved is not a number within 1,099,511,627,776 (2^40) of 0",
            Reason::UndefinedCharacter => "a byte, or a unit on the way back, stands for nothing in code page 1252",
        }
    }

    /// What to do about it.
    ///
    /// ```
    /// assert_eq!(dwg_hatch::Reason::PayloadTooLong.advice(), "lend only the object's own bytes");
    /// ```
    pub fn advice(self) -> &'static str {
        match self {
            Reason::TooFewBits => "check that the payload is whole, the release and the start bit",
            Reason::ReservedTag | Reason::CountTooLarge | Reason::EdgeKind | Reason::HandleCounter | Reason::TooManyXdataBlocks => CHECK,
            Reason::TextPastEnd => "check the string payload, its start bit and its end bit",
            Reason::NotUtf16 => "check the release, and the start bit of the payload that holds the text, else that payload is damaged",
            Reason::UnknownRelease => "name a release from 1 (R14) to 7 (R2018)",
            Reason::PayloadTooLong => "lend only the object's own bytes",
            Reason::ListTooShort => "lend longer lists and call again, or hand over record and lists as they were read",
            Reason::OtherPlane => "leave its coordinates as they are, or turn them into the drawing's own plane first",
            Reason::CoordinateOutOfRange => "check the origin; else the coordinate is damaged, or was read with a wrong release or start bit",
            Reason::UndefinedCharacter => "show the units as they are, or look for the drawing's own code page",
        }
    }
}

/// Why a reading stopped, and where. Places are bits, numbered from 0 in each payload.
///
/// It displays its number, its places, what it means and what to do about it, and so does a program whose `main` returns it:
///
/// ```
/// use dwg_hatch::Reason;
/// let refusal = dwg_hatch::read_bd(&[0xc0], 0).unwrap_err();
/// assert_eq!((refusal.reason, refusal.place, refusal.second_place), (Reason::ReservedTag, 2, 0));
/// assert_eq!(
///     refusal.to_string(),
///     "refusal 2 at bit 2: a BL or BD starts with the tag 11, which stands for no number; \
///      check the release and the start bit, else the payload is damaged"
/// );
/// assert_eq!(format!("{refusal:?}"), refusal.to_string());
/// ```
#[derive(Clone, Copy, PartialEq, Eq)]
pub struct Refusal {
    /// Why.
    pub reason: Reason,
    /// Where the main payload's reading stopped; of a call over one payload, where that payload's did.
    pub place: usize,
    /// Where the string payload's reading stopped; 0 without a string reader.
    pub second_place: usize,
    /// Which kind of call gave it.
    call: Call,
}

/// What a refusal is of. Number 11 means something else of each call that can give it, and where no bits are read there is no bit to name.
#[derive(Clone, Copy, PartialEq, Eq)]
enum Call {
    /// It reads bits.
    Reads,
    /// It was to read bits with a string reader, which starts past its payload.
    StringStartPast,
    /// It takes a hatch that was read.
    TakesHatch,
    /// It converts a text.
    Converts,
}

impl Refusal {
    /// The refusal of a call that reads bits, by its number.
    pub(crate) fn of_reading(number: u64, place: usize, second_place: usize) -> Refusal {
        Refusal { reason: Reason::of(number), place, second_place, call: Call::Reads }
    }

    /// That of a call whose string start lies past its payload: number 1, which stands for nothing else there.
    pub(crate) fn of_string_start(place: usize, second_place: usize) -> Refusal {
        Refusal { reason: Reason::TooFewBits, place, second_place, call: Call::StringStartPast }
    }

    /// That of a call that takes a hatch. Its places are 0.
    pub(crate) fn of_given_hatch(number: u64) -> Refusal {
        Refusal { reason: Reason::of(number), place: 0, second_place: 0, call: Call::TakesHatch }
    }

    /// That of a call that converts a text. Its places are 0.
    pub(crate) fn of_conversion(number: u64) -> Refusal {
        Refusal { reason: Reason::of(number), place: 0, second_place: 0, call: Call::Converts }
    }

    /// The reason's number.
    pub fn number(&self) -> u64 {
        self.reason.number()
    }

    /// What it means, in a few words: as [`Reason::meaning`], but of number 11, and of a string start past its payload, only what holds here.
    pub fn meaning(&self) -> &'static str {
        self.texts_of_call().map_or_else(|| self.reason.meaning(), |texts| texts[0])
    }

    /// What to do about it: as [`Reason::advice`], with the same exceptions.
    pub fn advice(&self) -> &'static str {
        self.texts_of_call().map_or_else(|| self.reason.advice(), |texts| texts[1])
    }

    /// Meaning and advice, where the number by itself names more than what holds here.
    fn texts_of_call(&self) -> Option<[&'static str; 2]> {
        match (self.call, self.reason) {
            (Call::StringStartPast, _) => Some(STRING_START_PAST),
            (Call::Reads, Reason::ListTooShort) => Some(SHORT),
            (Call::TakesHatch, Reason::ListTooShort) => Some(UNFIT),
            (Call::Converts, Reason::ListTooShort) => Some(NARROW),
            _ => None,
        }
    }
}

impl fmt::Display for Refusal {
    fn fmt(&self, f: &mut fmt::Formatter<'_>) -> fmt::Result {
        write!(f, "refusal {}", self.number())?;
        if matches!(self.call, Call::Reads | Call::StringStartPast) {
            write!(f, " at bit {}", self.place)?;
        }
        if self.second_place != 0 || self.call == Call::StringStartPast {
            write!(f, " of the main payload and bit {} of the string payload", self.second_place)?;
        }
        write!(f, ": {}; {}", self.meaning(), self.advice())
    }
}

/// As it displays, since this is what a program shows whose `main` returns it.
impl fmt::Debug for Refusal {
    fn fmt(&self, f: &mut fmt::Formatter<'_>) -> fmt::Result {
        fmt::Display::fmt(self, f)
    }
}

impl std::error::Error for Refusal {}

#[cfg(test)]
mod tests {
    use super::*;

    #[test]
    fn every_reason_has_its_own_number_and_meaning() {
        for (at, reason) in Reason::ALL.into_iter().enumerate() {
            assert_eq!((reason.number(), Reason::of(reason.number())), (at as u64 + 1, reason));
            assert!(Reason::ALL[..at].iter().all(|other| other.meaning() != reason.meaning()), "{reason:?}");
        }
    }

    /// The C header has the same names, numbers and meanings.
    #[test]
    fn the_header_has_the_same_table() {
        let header = include_str!("../../include/dwg_hatch_codes.h");
        let spelt = |reason: Reason| {
            let name = format!("{reason:?}");
            let letters = name.char_indices().flat_map(|(at, letter)| (at > 0 && letter.is_uppercase()).then_some('_').into_iter().chain([letter]));
            letters.collect::<String>().to_uppercase()
        };
        for reason in Reason::ALL {
            let (name, meaning) = (format!("DWG_{}", spelt(reason)), reason.meaning());
            assert!(header.contains(&format!("    {name} = {}", reason.number())), "{name}");
            assert!(header.contains(&format!("case {name}: return \"{meaning}\";")), "{name}: {meaning}");
        }
        assert_eq!(header.matches("    case DWG_").count(), Reason::ALL.len() + 1);
    }

    #[test]
    #[should_panic = "outside its contract"]
    fn a_number_that_is_not_in_the_table_is_no_reason() {
        Reason::of(Reason::ALL.len() as u64 + 1);
    }

    /// Number 11 says which of its three it is, and a call that reads no bits has no bit to name.
    #[test]
    fn a_refusal_says_what_holds_of_it() {
        let short = Refusal::of_reading(11, 156, 0).to_string();
        assert_eq!(short, "refusal 11 at bit 156: the hatch is readable, but a lent list is too short for it; lend longer lists and read again");
        let narrow = Refusal::of_conversion(11).to_string();
        assert_eq!(narrow, "refusal 11: the output is shorter than the input; lend an output that is as long as the input");
        assert!(Refusal::of_given_hatch(11).to_string().starts_with("refusal 11: record and lists do not fit each other: a count "));
        assert!(Refusal::of_given_hatch(12).to_string().starts_with("refusal 12: the hatch's extrusion is not (0, 0, 1), "));
        assert!(Refusal::of_given_hatch(13).to_string().starts_with("refusal 13: the origin or a coordinate to be moved is not a number "));
        assert!(Refusal::of_conversion(14).to_string().starts_with("refusal 14: a byte, or a unit on the way back, stands for nothing in "));
        assert!(Refusal::of_reading(1, 0, 0).to_string().starts_with("refusal 1 at bit 0: "));
    }

    #[test]
    fn a_second_place_is_displayed() {
        let refusal = Refusal::of_reading(6, 8, 10);
        assert!(refusal.to_string().starts_with("refusal 6 at bit 8 of the main payload and bit 10 of the string payload: a text"));
        let past = Refusal::of_string_start(0, 0).to_string();
        assert!(past.starts_with("refusal 1 at bit 0 of the main payload and bit 0 of the string payload: the string reader's start bit"), "{past}");
    }
}
