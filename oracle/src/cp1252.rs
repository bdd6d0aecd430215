//! Code page 1252 by glibc's iconv, which nobody here wrote: one byte or one unit at a time, and what it does not convert is undefined. Around it stand
//! document 02's words: 14 for an entry that is undefined, then 11 for an output that is shorter than the input.

use std::ffi::{CStr, c_char, c_int, c_void};
use std::ptr::null_mut;
use std::sync::OnceLock;

use crate::cp1252_request::{CodePageRequest, Input};
use crate::show;

unsafe extern "C" {
    fn iconv_open(to: *const c_char, from: *const c_char) -> *mut c_void;
    fn iconv(converter: *mut c_void, input: *mut *mut u8, input_left: *mut usize, output: *mut *mut u8, output_left: *mut usize) -> usize;
    fn iconv_close(converter: *mut c_void) -> c_int;
}

/// The names by which iconv knows the code page and 16-bit units, low byte first and without a mark before them.
const PAGE: &CStr = c"CP1252";
const UNITS: &CStr = c"UTF-16LE";

struct Converter(*mut c_void);

impl Converter {
    fn open(to: &CStr, from: &CStr) -> Option<Converter> {
        // SAFETY: both are texts that end in a zero.
        let converter = unsafe { iconv_open(to.as_ptr(), from.as_ptr()) };
        (converter as isize != -1).then_some(Converter(converter))
    }

    /// What one character becomes, if it becomes just so many bytes; from a fresh state, so that nothing hangs on the one before.
    fn convert<const N: usize>(&self, mut character: Vec<u8>) -> Option<[u8; N]> {
        let mut output = [0; 16];
        let (mut from, mut left, mut to, mut room) = (character.as_mut_ptr(), character.len(), output.as_mut_ptr(), output.len());
        // SAFETY: the converter is open; each pointer is a list's own, with its length, and the lists live to the end.
        let irreversible = unsafe {
            iconv(self.0, null_mut(), null_mut(), null_mut(), null_mut());
            iconv(self.0, &mut from, &mut left, &mut to, &mut room)
        };
        let whole = irreversible == 0 && left == 0 && room == output.len() - N;
        if whole { output.first_chunk().copied() } else { None }
    }
}

impl Drop for Converter {
    fn drop(&mut self) {
        // SAFETY: it is open, and is closed once.
        unsafe { iconv_close(self.0) };
    }
}

/// The unit of every byte and the byte of every unit, if there is one.
pub struct Page {
    pub units: Vec<Option<u16>>,
    pub bytes: Vec<Option<u8>>,
}

fn ask() -> Option<Page> {
    let (to_units, to_bytes) = (Converter::open(UNITS, PAGE)?, Converter::open(PAGE, UNITS)?);
    let units = (0..=u8::MAX).map(|byte| to_units.convert(vec![byte]).map(u16::from_le_bytes)).collect();
    let bytes = (0..=u16::MAX).map(|unit| to_bytes.convert(unit.to_le_bytes().to_vec()).map(u8::from_le_bytes)).collect();
    Some(Page { units, bytes })
}

/// What iconv says, asked once. Without it there is no judge, and the program ends.
pub fn page() -> &'static Page {
    static ASKED: OnceLock<Page> = OnceLock::new();
    ASKED.get_or_init(|| {
        ask().unwrap_or_else(|| {
            eprintln!("oracle: iconv of the C library has no converter between CP1252 and UTF-16LE, so that conversions have no judge");
            std::process::exit(2)
        })
    })
}

/// Each way in which a conversion is answered; the last four are of the way back.
pub const WAYS: [&str; 8] = [
    "to units: converted",
    "to units: 14, with room enough",
    "to units: 14, with too little room",
    "to units: 11",
    "to bytes: converted",
    "to bytes: 14, with room enough",
    "to bytes: 14, with too little room",
    "to bytes: 11",
];

/// Which of the ways is taken.
pub fn way(request: &CodePageRequest) -> &'static str {
    let way = match (is_defined(&request.input), is_short(request)) {
        (true, false) => 0,
        (false, false) => 1,
        (false, true) => 2,
        (true, true) => 3,
    };
    WAYS[way + if matches!(request.input, Input::Units(_)) { 4 } else { 0 }]
}

fn unit_of(byte: u8) -> Option<u16> {
    page().units[usize::from(byte)]
}

fn byte_of(unit: u16) -> Option<u8> {
    page().bytes[usize::from(unit)]
}

fn is_defined(input: &Input) -> bool {
    match input {
        Input::Bytes(bytes) => bytes.iter().all(|byte| unit_of(*byte).is_some()),
        Input::Zeros(count) => *count == 0 || unit_of(0).is_some(),
        Input::Units(units) => units.iter().all(|unit| byte_of(*unit).is_some()),
    }
}

fn is_short(request: &CodePageRequest) -> bool {
    request.room.is_some_and(|room| room < request.input.length())
}

pub fn answer(request: &CodePageRequest) -> String {
    if !is_defined(&request.input) {
        return "err 14 0 0".to_string();
    }
    if is_short(request) {
        return "err 11 0 0".to_string();
    }
    let unit = |byte: &u8| format!("{:04x}", unit_of(*byte).expect("a byte that is defined"));
    let byte = |unit: &u16| format!("{:02x}", byte_of(*unit).expect("a unit that is defined"));
    let converted = match &request.input {
        Input::Bytes(bytes) => show::list(bytes, "", unit),
        Input::Zeros(count) => show::list(&vec![0; *count as usize], "", unit),
        Input::Units(units) => show::list(units, "", byte),
    };
    format!("ok {} {converted}", request.input.length())
}
