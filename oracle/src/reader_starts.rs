//! The Rust's string reader, made at every start bit of short payloads: the lines that crate `reader_starts` of the port writes of its own reader, and has as
//! its file stdout. Payloads, starts and lines are the same there.

use crate::bitcursor::BitCursor;
use crate::refusal;
use crate::string_stream::{self, StringReader, StringStream};

/// The longest payload in bytes, and how many bits past a payload's end its starts go.
const LONGEST: usize = 40;
const BITS_PAST: usize = 64;

/// A text of one unit: length 1 by code 01, and the unit 0041, low byte first.
const TEXT: u32 = 0x0101_4100;
const TEXT_BITS: usize = 26;

/// How a reader starts: the bit where it stands, or the refusal's number and place.
type Started = Result<usize, (u32, usize)>;

/// What lies in a payload of so many bytes: zeros alone, ones alone, or a text at the start, as much of it as there is room for, and zeros elsewhere.
fn laid(length: usize, start: usize) -> [Vec<u8>; 3] {
    let mut text = vec![0; length];
    for i in (0..TEXT_BITS).filter(|i| TEXT >> (TEXT_BITS - 1 - i) & 1 == 1) {
        if let Some(byte) = text.get_mut((start + i) / 8) {
            *byte |= 0x80 >> ((start + i) % 8);
        }
    }
    [vec![0; length], vec![0xff; length], text]
}

/// The reader itself says why it does not start, and its `seek` where.
fn started(bytes: &[u8], start: usize) -> Started {
    match StringReader::new(bytes, StringStream { start_bit: start, end_bit: 8 * bytes.len() }) {
        Ok(reader) => Ok(reader.position_bits()),
        Err(error) => {
            let mut cursor = BitCursor::new(bytes);
            string_stream::seek(&mut cursor, start).expect_err("a start that the reader refused");
            Err((refusal::number_of(&error), cursor.position_bits()))
        }
    }
}

/// How a reader starts, in the words of a line.
fn words(length: usize, start: usize) -> String {
    let [zeros, ones, text] = laid(length, start).map(|bytes| started(&bytes, start));
    if zeros != ones || ones != text {
        return "not the same whatever lies in the payload".to_string();
    }
    match text {
        Ok(place) if place == start => "ok, each there".to_string(),
        Ok(place) => format!("ok {place}"),
        Err((number, place)) => format!("err {number} {place}"),
    }
}

/// A line for each payload and each run of starts that are alike.
pub fn run() -> Result<bool, String> {
    for length in 0..=LONGEST {
        let last = 8 * length + BITS_PAST;
        let mut from = 0;
        for start in 0..=last {
            if start == last || words(length, start) != words(length, start + 1) {
                println!("{length} bytes, starts {from} to {start}: {}", words(length, start));
                from = start + 1;
            }
        }
    }
    Ok(true)
}
