//! String starts: a body of no path whose name stands at some bit of a long string payload. The Rust seeks the start bit by bit; the port has four calls that
//! take one.

use std::hint::black_box;
use std::rc::Rc;

use crate::bitcursor::BitCursor;
use crate::entities::hatch::{self, Hatch};
use crate::ffi::{self, BodyAnswer, BodyBitsAnswer, LengthsAnswer, TextAnswer, TextFields};
use crate::sides::{Repeat, Row, repeat};
use crate::string_stream::{StringReader, StringStream};
use crate::version::Version;

/// The sides of a row by their numbers, from 0.
pub const SIDES: [&str; 5] = ["Rust", "as f64", "as 64 bits", "measuring", "text alone"];

/// The least bytes of a payload in which a text fits behind the middle.
pub const LEAST_BYTES: usize = 7;

const MAIN: [u8; 3] = [0xa9, 0xaa, 0xa0]; // the body
const RELEASE: u64 = 2;
const VERSION: Version = Version::R2000;

const TEXT: [u8; 4] = [0x40, 0x50, 0x40, 0x00]; // length 1, in so many bits, and the unit 0041
const LENGTH_BITS: usize = 10;
pub const TEXT_BITS: usize = LENGTH_BITS + 16;

/// A string payload, a start in it, and the name that is laid there; at the payload's end none, since there is no bit left.
struct Start {
    string: Vec<u8>,
    bit: usize,
    name: &'static str,
}

impl Start {
    fn new(length: usize, bit: usize) -> Start {
        let mut string = vec![0; length]; // a large one is of zero pages, which take no room until a bit is laid
        let name = if bit < 8 * length { "A" } else { "" };
        for at in 0..TEXT_BITS * name.len() {
            string[(bit + at) / 8] |= (TEXT[at / 8] >> (7 - at % 8) & 1) << (7 - (bit + at) % 8);
        }
        Start { string, bit, name }
    }

    fn rust(&self) -> Option<(Hatch, usize)> {
        let stream = StringStream { start_bit: self.bit, end_bit: 8 * self.string.len() };
        let mut reader = StringReader::new(&self.string, stream).ok()?;
        let read = hatch::decode_with_strings_for_the_oracle(&mut BitCursor::new(&MAIN), VERSION, Some(&mut reader)).ok()?;
        Some((read, reader.position_bits()))
    }

    fn port(&self) -> BodyAnswer {
        let (s, n, numbers, words) = (self.string.as_ptr(), self.string.len(), [0.0f64; 0].as_mut_ptr(), [0u32; 0].as_mut_ptr());
        // SAFETY: each pointer is a slice's own with its length, that of the lists 0.
        unsafe { ffi::dwg_hatch_decode_with_strings(MAIN.as_ptr(), 3, 0, s, n, self.bit, 8 * n, RELEASE, numbers, 0, words, 0) }
    }

    fn port_bits(&self) -> BodyBitsAnswer {
        let (s, n, bits, words) = (self.string.as_ptr(), self.string.len(), [0u64; 0].as_mut_ptr(), [0u32; 0].as_mut_ptr());
        // SAFETY: as above.
        unsafe { ffi::dwg_hatch_decode_with_strings_bits(MAIN.as_ptr(), 3, 0, s, n, self.bit, 8 * n, RELEASE, bits, 0, words, 0) }
    }

    fn measured(&self) -> LengthsAnswer {
        let (s, n) = (self.string.as_ptr(), self.string.len());
        // SAFETY: each pointer is a slice's own with its length.
        unsafe { ffi::dwg_hatch_measure_with_strings(MAIN.as_ptr(), 3, 0, s, n, self.bit, 8 * n, RELEASE) }
    }

    fn text(&self) -> TextAnswer {
        let (s, n) = (self.string.as_ptr(), self.string.len());
        // SAFETY: the pointer is the slice's own with its length.
        unsafe { ffi::dwg_read_string_tv(s, n, self.bit, 8 * n) }
    }

    /// Whether a side reads what was laid out: the name, which the measuring does not give, and the place behind it.
    fn is_read_by(&self, side: usize) -> bool {
        match side {
            0 => self.rust().is_some_and(|(read, place)| (read.pattern_name.as_str(), place) == (self.name, self.place_behind())),
            1 => {
                let read = self.port();
                self.is_laid(read.refusal, read.string_place, &read.fields.pattern_name)
            }
            2 => {
                let read = self.port_bits();
                self.is_laid(read.refusal, read.string_place, &read.fields.pattern_name)
            }
            3 => {
                let read = self.measured();
                (read.refusal, read.string_place) == (0, self.place_behind())
            }
            _ => {
                let TextAnswer { refusal, place, source, width, padded, position, count } = self.text();
                self.is_laid(refusal, place, &TextFields { source, width, padded, position, count })
            }
        }
    }

    fn place_behind(&self) -> usize {
        self.bit + TEXT_BITS * self.name.len()
    }

    /// The port says where the units lie: those of the name are the ones that were laid there.
    fn is_laid(&self, refusal: u64, place: usize, name: &TextFields) -> bool {
        let units = name.count == 0 || (name.source, name.width, name.position) == (2, 16, self.bit + LENGTH_BITS);
        (refusal, place, name.count) == (0, self.place_behind(), self.name.len()) && units
    }
}

/// The calls of a side. All sides read the same payload, since one may be large.
fn calls<Answer>(start: &Rc<Start>, call: impl Fn(&Start) -> Answer + 'static) -> Repeat {
    let start = Rc::clone(start);
    repeat(move || drop(black_box(call(black_box(&start)))))
}

/// A start at a bit of a string payload of so many bytes, with all sides; those of `checked` must read what was laid out.
pub fn of_start(name: &str, length: usize, bit: usize, checked: &[usize]) -> Result<Row, String> {
    let start = Rc::new(Start::new(length, bit));
    if let Some(side) = checked.iter().find(|side| !start.is_read_by(**side)) {
        return Err(format!("{name}: {} does not read what was laid out", SIDES[*side]));
    }
    let sides = vec![
        calls(&start, Start::rust),
        calls(&start, Start::port),
        calls(&start, Start::port_bits),
        calls(&start, Start::measured),
        calls(&start, Start::text),
    ];
    Ok(Row { name: name.to_string(), bytes: length, sides })
}
