//! A line of the protocol as a request.

use dwg_hatch::{HatchBody, Release, StringReader};

use crate::protocol::conversions::ConversionRequest;
use crate::protocol::given::Given;
use crate::protocol::payload::{Payload, Zeros};

/// A request line, taken apart.
#[derive(Clone, Debug, PartialEq)]
pub enum Request {
    /// One code.
    Code(CodeRequest),
    /// `tv`: one inline text.
    Text(TextRequest),
    /// `prefix`: one entity prefix.
    Prefix(PrefixRequest),
    /// `hatch` or `hatchs`: one hatch body.
    Hatch(HatchRequest),
    /// `move`: the origin of a hatch that is handed over.
    Move(Box<MoveRequest>),
    /// `cp1252` or `uncp1252`: a text to be converted.
    Conversion(ConversionRequest),
}

/// A single code. Its release is 1 to 7 and changes nothing.
#[derive(Clone, Debug, PartialEq, Eq)]
pub struct CodeRequest {
    /// Which code.
    pub code: Code,
    /// The start bit.
    pub start: usize,
    /// The payload.
    pub payload: Payload,
}

/// The codes, by the protocol's names.
#[derive(Clone, Copy, Debug, PartialEq, Eq)]
#[allow(missing_docs)]
pub enum Code {
    B,
    Bb,
    ThreeB,
    Bs,
    BsU,
    Bl,
    BlU,
    Bd,
    Bll,
    Rc,
    Rs,
    Rl,
    Rd,
    /// With the default's 64 bits.
    Dd(u64),
    Handle,
}

/// An inline text.
#[derive(Clone, Debug, PartialEq, Eq)]
pub struct TextRequest {
    /// The release.
    pub release: Release,
    /// The start bit.
    pub start: usize,
    /// The payload.
    pub payload: Payload,
}

/// An entity prefix.
#[derive(Clone, Debug, PartialEq, Eq)]
pub struct PrefixRequest {
    /// The release, any number.
    pub release: u64,
    /// The start bit.
    pub start: usize,
    /// The payload.
    pub payload: Payload,
}

/// A hatch body.
#[derive(Clone, Debug, PartialEq, Eq)]
pub struct HatchRequest {
    /// The release, any number.
    pub release: u64,
    /// The main start bit.
    pub start: usize,
    /// The main payload.
    pub payload: Payload,
    /// The string reader, if one is lent.
    pub strings: Option<Strings>,
    /// The lengths of the lent lists; without them the lists are long enough.
    pub lent: Option<Lent>,
}

impl HatchRequest {
    /// The body that the request names, its zeros lent.
    pub fn body<'a>(&'a self, zeros: &'a mut Zeros) -> HatchBody<'a> {
        zeros.reserve(&self.payload);
        self.strings.iter().for_each(|strings| zeros.reserve(&strings.payload));
        let lend = |payload| zeros.lend(payload);
        let reader = |strings: &'a Strings| StringReader { payload: lend(&strings.payload), start: strings.start, end: strings.end };
        let strings = self.strings.as_ref().map(reader);
        HatchBody { payload: lend(&self.payload), start: self.start, release_number: self.release, strings }
    }
}

/// A string reader.
#[derive(Clone, Debug, PartialEq, Eq)]
pub struct Strings {
    /// The start bit.
    pub start: usize,
    /// The end bit.
    pub end: usize,
    /// The string payload.
    pub payload: Payload,
}

/// The lengths of the lent lists.
#[derive(Clone, Copy, Debug, PartialEq, Eq)]
pub struct Lent {
    /// Entries of the list of words.
    pub words: usize,
    /// Entries of the list of numbers.
    pub numbers: usize,
}

/// An origin that a hatch is moved to, each double as its 64 bits.
#[derive(Clone, Debug, PartialEq)]
pub struct MoveRequest {
    /// The origin's x.
    pub x: u64,
    /// The origin's y.
    pub y: u64,
    /// The record and its lists.
    pub given: Given,
}

/// The request that a line holds; `None` is answered `bad request`.
pub fn parse(line: &[u8]) -> Option<Request> {
    let words = line.split(u8::is_ascii_whitespace).filter(|word| !word.is_empty());
    let fields: Vec<&[u8]> = words.collect();
    match fields.as_slice() {
        [b"hatch", release, start, main, lent @ ..] => hatch([release, start, main], None, lent),
        [b"hatchs", release, start, main, from, to, text, lent @ ..] => {
            let strings = Strings { start: place(from)?, end: place(to)?, payload: Payload::parse(text)? };
            hatch([release, start, main], Some(strings), lent)
        }
        [b"move", x, y, fields @ ..] => Some(Request::Move(Box::new(MoveRequest { x: pattern(x)?, y: pattern(y)?, given: Given::parse(fields)? }))),
        [b"cp1252", fields @ ..] => ConversionRequest::of_bytes(fields).map(Request::Conversion),
        [b"uncp1252", fields @ ..] => ConversionRequest::of_units(fields).map(Request::Conversion),
        [b"prefix", release, start, main] => prefix([release, start, main]),
        [b"tv", release, start, main] => text([release, start, main]),
        [b"dd", release, start, main, default] => code(Code::Dd(pattern(default)?), [release, start, main]),
        [name, release, start, main] => code(named(name)?, [release, start, main]),
        _ => None,
    }
}

fn hatch([release, start, main]: [&[u8]; 3], strings: Option<Strings>, lent: &[&[u8]]) -> Option<Request> {
    let lent = match lent {
        [] => None,
        [b"L", words, numbers] => Some(Lent { words: place(words)?, numbers: place(numbers)? }),
        _ => return None,
    };
    let (release, start, payload) = (number(release)?, place(start)?, Payload::parse(main)?);
    Some(Request::Hatch(HatchRequest { release, start, payload, strings, lent }))
}

fn prefix([release, start, main]: [&[u8]; 3]) -> Option<Request> {
    let (release, start, payload) = (number(release)?, place(start)?, Payload::parse(main)?);
    Some(Request::Prefix(PrefixRequest { release, start, payload }))
}

fn text([release, start, main]: [&[u8]; 3]) -> Option<Request> {
    let (release, start, payload) = (known(release)?, place(start)?, Payload::parse(main)?);
    Some(Request::Text(TextRequest { release, start, payload }))
}

fn code(code: Code, [release, start, main]: [&[u8]; 3]) -> Option<Request> {
    known(release)?;
    Some(Request::Code(CodeRequest { code, start: place(start)?, payload: Payload::parse(main)? }))
}

fn named(name: &[u8]) -> Option<Code> {
    Some(match name {
        b"b" => Code::B,
        b"bb" => Code::Bb,
        b"3b" => Code::ThreeB,
        b"bs" => Code::Bs,
        b"bsu" => Code::BsU,
        b"bl" => Code::Bl,
        b"blu" => Code::BlU,
        b"bd" => Code::Bd,
        b"bll" => Code::Bll,
        b"rc" => Code::Rc,
        b"rs" => Code::Rs,
        b"rl" => Code::Rl,
        b"rd" => Code::Rd,
        b"handle" => Code::Handle,
        _ => return None,
    })
}

/// A release that a single code or text takes: 1 to 7.
fn known(field: &[u8]) -> Option<Release> {
    Release::try_from(number(field)?).ok()
}

/// A bit offset or a length.
fn place(field: &[u8]) -> Option<usize> {
    usize::try_from(number(field)?).ok()
}

/// A plain decimal number up to 2^64 - 1: digits alone, no sign.
pub fn number(field: &[u8]) -> Option<u64> {
    if !field.iter().all(u8::is_ascii_digit) {
        return None;
    }
    std::str::from_utf8(field).ok()?.parse().ok()
}

/// A double's 64 bits as 16 hexadecimal digits.
pub fn pattern(field: &[u8]) -> Option<u64> {
    if field.len() != 16 || !field.iter().all(u8::is_ascii_hexdigit) {
        return None;
    }
    u64::from_str_radix(std::str::from_utf8(field).ok()?, 16).ok()
}

#[cfg(test)]
mod tests {
    use super::*;

    #[test]
    fn a_request_names_a_body() {
        let Some(Request::Hatch(request)) = parse(b"hatch 2 0 A9AAA0") else { panic!("no hatch request") };
        assert!(request.body(&mut Zeros::default()).read().unwrap().paths.is_empty());
        assert!(matches!(parse(b"bs 2 0 3FFFC0"), Some(Request::Code(_))));
        assert!(matches!(parse(b"hatchs 2 0 A9 0 16 4040 L 4 2"), Some(Request::Hatch(_))));
        assert_eq!(parse(b"bs 2 0"), None);
    }

    #[test]
    fn whitespace_of_any_ascii_kind_parts_fields() {
        let plain = parse(b"b 1 0 80");
        assert!(plain.is_some());
        assert_eq!(parse(b" \tb\x0c1  0\t80\r"), plain);
        assert_eq!(parse("b\u{a0}1 0 80".as_bytes()), None);
    }

    #[test]
    fn numbers_are_plain_decimal() {
        assert_eq!(number(b"007"), Some(7));
        assert_eq!(number(b"18446744073709551615"), Some(u64::MAX));
        for field in ["", "18446744073709551616", "+1", "-1", "1.0", "0x1", "1_0"] {
            assert_eq!(number(field.as_bytes()), None, "{field}");
        }
    }

    #[test]
    fn single_codes_take_releases_1_to_7() {
        for name in ["b", "tv"] {
            let line = |release: u64| format!("{name} {release} 0 80");
            assert!((1..=7).all(|release| parse(line(release).as_bytes()).is_some()));
            assert!([0, 8, u64::MAX].iter().all(|release| parse(line(*release).as_bytes()).is_none()));
        }
        assert!(parse(b"prefix 8 0 -").is_some());
    }

    #[test]
    fn each_part_of_a_prefix_request_is_kept() {
        let payload = Payload::Bytes(vec![0xa9]);
        assert_eq!(parse(b"prefix 9 3 A9"), Some(Request::Prefix(PrefixRequest { release: 9, start: 3, payload })));
    }

    #[test]
    fn each_part_of_a_hatch_request_is_kept() {
        let Some(Request::Hatch(hatch)) = parse(b"hatchs 9 1 A9 2 16 z3 L 4 5") else { panic!("no hatch request") };
        assert_eq!((hatch.release, hatch.start, hatch.payload), (9, 1, Payload::Bytes(vec![0xa9])));
        assert_eq!(hatch.strings, Some(Strings { start: 2, end: 16, payload: Payload::Zeros(3) }));
        assert_eq!(hatch.lent, Some(Lent { words: 4, numbers: 5 }));
    }

    #[test]
    fn each_part_of_a_move_is_kept() {
        let Some(Request::Move(request)) = parse(b"move 0000000000000001 8000000000000000 words=7 nums=0000000000000002") else { panic!("no move") };
        assert_eq!((request.x, request.y, request.given.words, request.given.numbers), (1, 1 << 63, vec![7], vec![2]));
    }

    #[test]
    fn lines_that_are_no_requests() {
        let lines = "|b|b 1 0|b 1 0 80 0|B 1 0 80|mc 1 0 80|dd 1 0 80|dd 1 0 80 123|dd 1 0 80 +000000000000001|dd 1 0 80 00000000000000001\
            |hatch 1 0|hatch 1 0 - L|hatch 1 0 - L 1|hatch 1 0 - l 1 1|hatch 1 0 - L 1 1 1|hatchs 1 0 - 0 0|hatchs 1 0 - 0 - -\
            |move|move 0000000000000000|move 0 0|move 0000000000000000 0000000000000000 words|move 0000000000000000 0000000000000000 L 1\
            |prefix 1 0 - L 1 1|prefix 1 0 zz|tv 0 0 80|b one 0 80|b 1 0 8";
        for line in lines.split('|') {
            assert_eq!(parse(line.as_bytes()), None, "{line}");
        }
    }
}
