//! The Rust, unchanged, as a library that answers one request of a C program (rust_answer.h); rust-library builds it. For the fuzzer it has coverage
//! counters, so that inputs are looked for that take new ways through the Rust; for oracle/starts it has none.

include!("rust_modules.rs");

// The oracle's answers.
#[allow(dead_code)]
mod answer;
mod answer_code;
#[allow(dead_code)]
mod answer_hatch;
mod answer_prefix;
#[allow(dead_code)]
mod cp1252;
mod cp1252_request;
mod lists;
mod move_model;
mod move_request;
mod refusal;
#[allow(dead_code)]
mod request;
mod show;
mod text_place;

use std::slice;

use refusal::Refusal;
use request::{Code, HatchRequest, Lent, Payload, Reader};
use show::Show;
use string_stream::{StringReader, StringStream};

/// `Request` of host/tests/c/calls.h.
#[repr(C)]
pub struct Asked {
    kind: u32,
    release: u64,
    start: usize,
    main: *const u8,
    main_length: usize,
    string_start: usize,
    string_end: usize,
    string: *const u8,
    string_length: usize,
    lent: bool,
    words: usize,
    numbers: usize,
    fallback: u64,
}

const SHOW: Show = Show { f64_entries: false };

impl Asked {
    fn main(&self) -> &[u8] {
        // SAFETY: the C program lends so many bytes for the call.
        unsafe { slice::from_raw_parts(self.main, self.main_length) }
    }

    fn payload(&self) -> Payload {
        Payload::Bytes(self.main().to_vec())
    }

    /// The kinds as calls.h numbers them.
    fn line(&self) -> String {
        let code = match self.kind {
            0 => Code::B,
            1 => Code::Bb,
            2 => Code::ThreeB,
            3 => Code::Bs,
            4 => Code::Bsu,
            5 => Code::Bl,
            6 => Code::Blu,
            7 => Code::Bd,
            8 => Code::Bll,
            9 => Code::Rc,
            10 => Code::Rs,
            11 => Code::Rl,
            12 => Code::Rd,
            13 => Code::Handle,
            14 => Code::Dd(self.fallback),
            15 => Code::Tv,
            16 => return self.reader_text(),
            17 => return answer_prefix::answer(self.release, self.start as u64, &self.payload(), SHOW),
            _ => return self.hatch(),
        };
        match request::version_of(self.release) {
            Some(version) => answer_code::answer(code, version, self.start as u64, &self.payload(), SHOW),
            None => Refusal::new(9, self.start as u64, 0).line(), // added by document 01
        }
    }

    fn hatch(&self) -> String {
        // SAFETY: the C program lends so many bytes for the call.
        let string = || unsafe { slice::from_raw_parts(self.string, self.string_length) }.to_vec();
        let (start, end) = (self.string_start as u64, self.string_end as u64);
        let reader = (self.kind == 19).then(|| Reader { start, end, payload: Payload::Bytes(string()) });
        let lent = self.lent.then_some(Lent { words: self.words as u64, numbers: self.numbers as u64 });
        let request = HatchRequest { release: self.release, start: self.start as u64, main: self.payload(), reader, lent };
        answer_hatch::answer(&request, SHOW)
    }

    /// Text from a string reader alone, which is no request of the protocol. The Rust opens no reader past its payload; there the port's
    /// rule is document 01's: empty at or past the end bit, else too few bits.
    fn reader_text(&self) -> String {
        let (start, end) = (self.start as u64, self.string_end);
        let Some(mut again) = refusal::cursor_at(self.main(), start) else {
            let empty = format!("ok {start} s:16:{start}:0:-:0");
            return if self.start >= end { empty } else { Refusal::new(1, start, 0).line() };
        };
        let stream = StringStream { start_bit: self.start, end_bit: end };
        let mut reader = StringReader::new(self.main(), stream).expect("a start inside the payload");
        match reader.read_tv() {
            Ok(rust) => {
                let text = text_place::from_reader(&mut again, end).expect("a second walk of what was read");
                text_place::check(&text, &rust);
                format!("ok {} {}", reader.position_bits(), show::text(&text))
            }
            Err(error) => Refusal::new(refusal::number_of(&error), reader.position_bits() as u64, 0).line(),
        }
    }
}

/// The Rust's answer line is `length` bytes at the pointer that is given back; `rust_answer_done` takes them back.
#[unsafe(no_mangle)]
pub extern "C" fn rust_answer(asked: &Asked, length: &mut usize) -> *mut u8 {
    let line = asked.line().into_bytes().into_boxed_slice();
    *length = line.len();
    Box::into_raw(line).cast()
}

/// The oracle's answer line to a request line of so many bytes; given back as that of `rust_answer`.
///
/// # Safety
/// The pointer is that of so many bytes.
#[unsafe(no_mangle)]
pub unsafe extern "C" fn model_answer(request: *const u8, request_length: usize, length: &mut usize) -> *mut u8 {
    // SAFETY: as asked above.
    let request = unsafe { slice::from_raw_parts(request, request_length) };
    let line = answer::line(str::from_utf8(request).expect("a request line is ASCII"), SHOW).into_bytes().into_boxed_slice();
    *length = line.len();
    Box::into_raw(line).cast()
}

/// # Safety
/// The pointer and the length are those of one call of `rust_answer`.
#[unsafe(no_mangle)]
pub unsafe extern "C" fn rust_answer_done(line: *mut u8, length: usize) {
    // SAFETY: as asked above.
    drop(unsafe { Box::from_raw(std::ptr::slice_from_raw_parts_mut(line, length)) });
}
