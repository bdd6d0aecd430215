//! The requests `cp1252` and `uncp1252`: a text converted by code page 1252, or the way back, and the answer's line.

use dwg_hatch::{cp1252_to_bytes, cp1252_to_units, Refusal};

use crate::protocol::answer::put_digits;
use crate::protocol::payload::{Payload, Zeros, LIMIT};
use crate::protocol::request::number;
use crate::protocol::OUTSIDE;

/// What the output holds before a call. What is left of it afterwards is looked at.
const UNIT_BEFORE: u16 = 0x5a5a;
const BYTE_BEFORE: u8 = 0x5a;

/// A text to be converted.
#[derive(Clone, Debug, PartialEq, Eq)]
pub struct ConversionRequest {
    /// The text.
    pub text: Converted,
    /// The length of the lent output; without it the output is as long as the input.
    pub room: Option<u64>,
}

/// What is converted.
#[derive(Clone, Debug, PartialEq, Eq)]
pub enum Converted {
    /// `cp1252`: bytes.
    Bytes(Payload),
    /// `uncp1252`: 16-bit units.
    Units(Vec<u16>),
}

impl ConversionRequest {
    /// The request of the words behind `cp1252`: HEX [L ROOM]. No list of zeros that is longer than a payload may be is one: so many may not be there to lend.
    pub fn of_bytes(words: &[&[u8]]) -> Option<ConversionRequest> {
        let (text, room) = parts(words)?;
        let bytes = Payload::parse(text).filter(|bytes| bytes.bits() <= 8 * LIMIT as u128)?;
        Some(ConversionRequest { text: Converted::Bytes(bytes), room })
    }

    /// The request of the words behind `uncp1252`: UNITS [L ROOM].
    pub fn of_units(words: &[&[u8]]) -> Option<ConversionRequest> {
        let (text, room) = parts(words)?;
        Some(ConversionRequest { text: Converted::Units(units(text)?), room })
    }

    /// The line of what is converted.
    pub fn line(&self, zeros: &mut Zeros) -> Result<String, Refusal> {
        match &self.text {
            Converted::Bytes(payload) => {
                zeros.reserve(payload);
                let bytes = zeros.lend(payload);
                converted(self.room, bytes.len(), UNIT_BEFORE, |units| cp1252_to_units(bytes, units))
            }
            Converted::Units(units) => converted(self.room, units.len(), BYTE_BEFORE, |bytes| cp1252_to_bytes(units, bytes)),
        }
    }
}

/// A text's field, and the length of the lent output if it is given.
fn parts<'a>(words: &[&'a [u8]]) -> Option<(&'a [u8], Option<u64>)> {
    match words {
        [text] => Some((text, None)),
        [text, b"L", room] => Some((text, Some(number(room)?))),
        _ => None,
    }
}

/// Four hexadecimal digits a unit; `-` for none.
fn units(field: &[u8]) -> Option<Vec<u16>> {
    if field == b"-" {
        return Some(Vec::new());
    }
    if field.is_empty() || field.len() % 4 != 0 || !field.iter().all(u8::is_ascii_hexdigit) {
        return None;
    }
    let unit = |digits: &[u8]| u16::from_str_radix(std::str::from_utf8(digits).ok()?, 16).ok();
    field.chunks_exact(4).map(unit).collect()
}

/// Lends an output as long as the request says, but not above one entry more than is needed, since it may name any length. Entries past those written are as
/// they were, and on a refusal all are; if they are not, no answer is better than a wrong one.
fn converted<Entry: Copy + PartialEq + Into<u64>>(
    room: Option<u64>,
    needed: usize,
    before: Entry,
    convert: impl FnOnce(&mut [Entry]) -> Result<usize, Refusal>,
) -> Result<String, Refusal> {
    let room = room.map_or(needed, |room| usize::try_from(room).map_or(needed + 1, |room| room.min(needed + 1)));
    let mut output = vec![before; room];
    let count = convert(&mut output);
    let written = count.as_ref().map_or(0, |count| *count);
    assert!(output.get(written..).is_some_and(|rest| rest.iter().all(|entry| *entry == before)), "{OUTSIDE}");
    count.map(|count| line(&output[..count]))
}

/// The line of what was written, in two or four digits each.
fn line<Entry: Copy + Into<u64>>(entries: &[Entry]) -> String {
    let digits = 2 * size_of::<Entry>();
    let mut line = format!("ok {} ", entries.len());
    line.reserve(digits * entries.len());
    if entries.is_empty() {
        line.push('-');
    }
    entries.iter().for_each(|entry| put_digits(&mut line, (*entry).into(), digits));
    line
}

#[cfg(test)]
mod tests {
    use crate::protocol::answer::Answerer;

    fn answers(lines: &[&str]) -> Vec<String> {
        let mut answerer = Answerer::new(false);
        lines.iter().map(|line| answerer.line(line.as_bytes())).collect()
    }

    #[test]
    fn texts_are_converted_both_ways() {
        assert_eq!(answers(&["cp1252 4BfC806368", "cp1252 z3", "cp1252 -"]), ["ok 5 004b00fc20ac00630068", "ok 3 000000000000", "ok 0 -"]);
        assert_eq!(answers(&["uncp1252 004B00fc20aC00630068", "uncp1252 -"]), ["ok 5 4bfc806368", "ok 0 -"]);
    }

    #[test]
    fn the_room_counts_after_what_is_undefined() {
        let most = u64::MAX;
        assert_eq!(answers(&["cp1252 4B81 L 0", "cp1252 4B L 0", "cp1252 4B80 L 1", "cp1252 - L 0"]), ["err 14 0 0", "err 11 0 0", "err 11 0 0", "ok 0 -"]);
        assert_eq!(answers(&["uncp1252 0081 L 0", "uncp1252 20ac L 0", "uncp1252 d800"]), ["err 14 0 0", "err 11 0 0", "err 14 0 0"]);
        let long = [format!("cp1252 80 L {most}"), format!("uncp1252 20ac L {most}"), format!("cp1252 81 L {most}")];
        assert_eq!(answers(&long.each_ref().map(String::as_str)), ["ok 1 20ac", "ok 1 80", "err 14 0 0"]);
    }

    #[test]
    fn lines_that_are_no_requests() {
        let most = u128::from(u64::MAX) + 1;
        let lines = [
            "cp1252", "cp1252 4", "cp1252 4G", "cp1252 4B L", "cp1252 4B L -1", "cp1252 4B L 1 1", "cp1252 4B l 1", "cp1252 4B M 1", "cp1252 4B 1", "CP1252 4B",
            "cp1252 2 0 4B", "cp1252 z", "cp1252 z268435457", "uncp1252", "uncp1252 004", "uncp1252 00fg", "uncp1252 z1", "uncp1252 z0", "uncp1252 0041 L",
            "uncp1252 0041 L x", "uncp1252 0041 L 1 1", "uncp1252 +041", "uncp1252 00 41", "cp1251 41",
        ];
        let long = [format!("cp1252 4B L {most}"), format!("cp1252 z{most}"), format!("uncp1252 0041 L {most}")];
        for line in lines.iter().copied().chain(long.iter().map(String::as_str)) {
            assert_eq!(answers(&[line]), ["bad request"], "{line}");
        }
    }
}
