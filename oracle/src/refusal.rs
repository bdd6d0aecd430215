//! Refusals by document 01's numbers, and cursors set at a start.

use crate::bitcursor::BitCursor;
use crate::error::Error;
use crate::string_stream;

/// A refusal with its two places; the second is 0 where there is no reader.
pub struct Refusal {
    pub number: u32,
    pub main: u64,
    pub string: u64,
}

impl Refusal {
    pub fn new(number: u32, main: u64, string: u64) -> Refusal {
        Refusal { number, main, string }
    }

    pub fn line(&self) -> String {
        format!("err {} {} {}", self.number, self.main, self.string)
    }
}

/// Document 01's number of an error of the Rust. The Rust tells 3, 4, 6, 7 and 8 apart by text alone.
pub fn number_of(error: &Error) -> u32 {
    match error {
        Error::BitsExhausted { .. } => 1,
        Error::ReservedBitPattern { .. } => 2,
        Error::HandleCounterTooLarge { .. } => 5,
        Error::SectionMap(text) => number_of_text(text),
        other => panic!("an error that no hatch or prefix field can give: {other:?}"),
    }
}

fn number_of_text(text: &str) -> u32 {
    if text.starts_with("HATCH ") && text.contains(" exceeds cap ") {
        3
    } else if text.starts_with("HATCH edge seg_type ") {
        4
    } else if text.ends_with("units overruns the stream") {
        6
    } else if text.ends_with("is not valid UTF-16") {
        7
    } else if text.starts_with("common object XDATA loop exceeded") {
        8
    } else {
        panic!("an error text with no number in document 01: {text}")
    }
}

/// A cursor at a start bit, set by the Rust's own `seek`; None if the start is past the payload.
pub fn cursor_at(bytes: &[u8], start: u64) -> Option<BitCursor<'_>> {
    let mut cursor = BitCursor::new(bytes);
    // added by document 01: the Rust's seek would stop at the payload's end; document 01 names the start itself.
    if start > cursor.total_bits() as u64 {
        return None;
    }
    string_stream::seek(&mut cursor, start as usize).expect("a start inside the payload");
    Some(cursor)
}
