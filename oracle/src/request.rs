//! A line of the protocol as a request.

use crate::cp1252_request::{self, CodePageRequest};
use crate::move_request::{self, MoveRequest};
use crate::version::Version;

/// Document 01's limit of a payload, in bytes.
pub const LIMIT: u64 = 268_435_456;

/// A payload; one above the limit is never stored, since it is refused unread.
pub enum Payload {
    Bytes(Vec<u8>),
    TooLong,
}

impl Payload {
    pub fn too_long(&self) -> bool {
        matches!(self, Payload::TooLong)
    }

    pub fn bytes(&self) -> &[u8] {
        match self {
            Payload::Bytes(bytes) => bytes,
            Payload::TooLong => panic!("a payload above the limit was to be read"),
        }
    }
}

pub struct Reader {
    pub start: u64,
    pub end: u64,
    pub payload: Payload,
}

/// The lengths of the two lent lists.
pub struct Lent {
    pub words: u64,
    pub numbers: u64,
}

pub struct HatchRequest {
    pub release: u64,
    pub start: u64,
    pub main: Payload,
    pub reader: Option<Reader>,
    pub lent: Option<Lent>,
}

#[derive(Clone, Copy)]
pub enum Code {
    B,
    Bb,
    ThreeB,
    Bs,
    Bsu,
    Bl,
    Blu,
    Bd,
    Bll,
    Rc,
    Rs,
    Rl,
    Rd,
    Dd(u64),
    Handle,
    Tv,
}

pub enum Request {
    Hatch(HatchRequest),
    Prefix { release: u64, start: u64, main: Payload },
    Code { code: Code, version: Version, start: u64, main: Payload },
    Move(MoveRequest),
    CodePage(CodePageRequest),
}

/// Releases as document 01 numbers them.
pub fn version_of(release: u64) -> Option<Version> {
    match release {
        1 => Some(Version::R14),
        2 => Some(Version::R2000),
        3 => Some(Version::R2004),
        4 => Some(Version::R2007),
        5 => Some(Version::R2010),
        6 => Some(Version::R2013),
        7 => Some(Version::R2018),
        _ => None,
    }
}

/// The request that a line holds; None is answered `bad request`.
pub fn parse(line: &str) -> Option<Request> {
    let fields: Vec<&str> = line.split_ascii_whitespace().collect();
    match fields.as_slice() {
        ["hatch", release, start, main, lent @ ..] => hatch(release, start, main, None, lent),
        ["hatchs", release, start, main, from, to, text, lent @ ..] => {
            let reader = Reader { start: number(from)?, end: number(to)?, payload: payload(text)? };
            hatch(release, start, main, Some(reader), lent)
        }
        ["prefix", release, start, main] => {
            Some(Request::Prefix { release: number(release)?, start: number(start)?, main: payload(main)? })
        }
        ["move", fields @ ..] => move_request::parse(fields).map(Request::Move),
        ["cp1252", words @ ..] => cp1252_request::bytes(words).map(Request::CodePage),
        ["uncp1252", words @ ..] => cp1252_request::units(words).map(Request::CodePage),
        ["dd", release, start, main, default] => one_code(Code::Dd(pattern(default)?), release, start, main),
        [name, release, start, main] => one_code(code(name)?, release, start, main),
        _ => None,
    }
}

fn hatch(release: &str, start: &str, main: &str, reader: Option<Reader>, lent: &[&str]) -> Option<Request> {
    let lent = match lent {
        [] => None,
        ["L", words, numbers] => Some(Lent { words: number(words)?, numbers: number(numbers)? }),
        _ => return None,
    };
    let (release, start, main) = (number(release)?, number(start)?, payload(main)?);
    Some(Request::Hatch(HatchRequest { release, start, main, reader, lent }))
}

/// A release other than 1 to 7 makes a single code no request.
fn one_code(code: Code, release: &str, start: &str, main: &str) -> Option<Request> {
    let version = version_of(number(release)?)?;
    Some(Request::Code { code, version, start: number(start)?, main: payload(main)? })
}

fn code(name: &str) -> Option<Code> {
    Some(match name {
        "b" => Code::B,
        "bb" => Code::Bb,
        "3b" => Code::ThreeB,
        "bs" => Code::Bs,
        "bsu" => Code::Bsu,
        "bl" => Code::Bl,
        "blu" => Code::Blu,
        "bd" => Code::Bd,
        "bll" => Code::Bll,
        "rc" => Code::Rc,
        "rs" => Code::Rs,
        "rl" => Code::Rl,
        "rd" => Code::Rd,
        "handle" => Code::Handle,
        "tv" => Code::Tv,
        _ => return None,
    })
}

fn number(field: &str) -> Option<u64> {
    if field.bytes().all(|b| b.is_ascii_digit()) { field.parse().ok() } else { None }
}

fn pattern(field: &str) -> Option<u64> {
    let plain = field.len() == 16 && field.bytes().all(|b| b.is_ascii_hexdigit());
    if plain { u64::from_str_radix(field, 16).ok() } else { None }
}

fn payload(field: &str) -> Option<Payload> {
    if field == "-" {
        return Some(Payload::Bytes(Vec::new()));
    }
    if let Some(count) = field.strip_prefix('z') {
        let count = number(count)?;
        let stored = || Payload::Bytes(vec![0; count as usize]);
        return Some(if count > LIMIT { Payload::TooLong } else { stored() });
    }
    let bytes = hex_bytes(field)?;
    Some(if bytes.len() as u64 > LIMIT { Payload::TooLong } else { Payload::Bytes(bytes) })
}

fn hex_bytes(field: &str) -> Option<Vec<u8>> {
    let digits: Option<Vec<u32>> = field.chars().map(|c| c.to_digit(16)).collect();
    let digits = digits?;
    if digits.is_empty() || digits.len() % 2 != 0 {
        return None;
    }
    Some(digits.chunks(2).map(|pair| (pair[0] * 16 + pair[1]) as u8).collect())
}
