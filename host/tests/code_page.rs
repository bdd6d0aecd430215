//! Code page 1252 through the wrapper: every byte and every unit as others have it, there and back, and every entry of the output on every way.

mod judges;

use dwg_hatch::{cp1252_to_bytes, cp1252_to_units, CodePage, Reason, Refusal};
use judges::judges;

/// What the outputs hold before a call.
const UNIT: u16 = 0x5a5a;
const BYTE: u8 = 0x5a;

const UNDEFINED: [u8; 5] = [0x81, 0x8d, 0x8f, 0x90, 0x9d];

/// What a conversion gives over an output of so many entries, and every entry of the output afterwards.
type Outcome<Entry> = (Result<usize, Reason>, Vec<Entry>);

fn to_units(bytes: &[u8], room: usize) -> Outcome<u16> {
    let mut units = vec![UNIT; room];
    (reason(cp1252_to_units(bytes, &mut units)), units)
}

fn to_bytes(units: &[u16], room: usize) -> Outcome<u8> {
    let mut bytes = vec![BYTE; room];
    (reason(cp1252_to_bytes(units, &mut bytes)), bytes)
}

/// A refusal's reason; its places are 0.
fn reason(converted: Result<usize, Refusal>) -> Result<usize, Reason> {
    converted.map_err(|refusal| {
        assert_eq!((refusal.place, refusal.second_place), (0, 0));
        refusal.reason
    })
}

/// What must be given where every entry of the input is defined: all of them, and behind them what was there.
fn written<Entry: Copy>(entries: &[Entry], room: usize, before: Entry) -> Outcome<Entry> {
    if room < entries.len() {
        return (Err(Reason::ListTooShort), vec![before; room]);
    }
    (Ok(entries.len()), entries.iter().copied().chain(vec![before; room - entries.len()]).collect())
}

fn undefined<Entry: Clone>(room: usize, before: Entry) -> Outcome<Entry> {
    (Err(Reason::UndefinedCharacter), vec![before; room])
}

/// The unit of a byte, by itself.
fn unit(byte: u8) -> Option<u16> {
    match to_units(&[byte], 1) {
        (Ok(1), units) => Some(units[0]),
        outcome => {
            assert_eq!(outcome, undefined(1, UNIT), "{byte:02x}");
            None
        }
    }
}

/// The byte of a unit, by itself.
fn byte(unit: u16) -> Option<u8> {
    match to_bytes(&[unit], 1) {
        (Ok(1), bytes) => Some(bytes[0]),
        outcome => {
            assert_eq!(outcome, undefined(1, BYTE), "{unit:04x}");
            None
        }
    }
}

#[test]
fn every_byte_and_every_unit_is_as_others_have_it() {
    for judge in judges() {
        for at in 0..=u8::MAX {
            assert_eq!(unit(at), judge.units[usize::from(at)], "{}: the byte {at:02x}", judge.name);
        }
        for at in 0..=u16::MAX {
            assert_eq!(byte(at), judge.bytes[usize::from(at)], "{}: the unit {at:04x}", judge.name);
        }
    }
}

#[test]
fn the_page_is_as_the_request_says() {
    for at in 0..=u8::MAX {
        match at {
            0x80..0xa0 if UNDEFINED.contains(&at) => assert_eq!(unit(at), None, "{at:02x}"),
            0x80..0xa0 => assert!(unit(at).is_some_and(|unit| unit > 0xff), "{at:02x}"),
            _ => assert_eq!(unit(at), Some(u16::from(at)), "{at:02x}"),
        }
    }
    assert_eq!([unit(0x80), unit(0x9f)], [Some(0x20ac), Some(0x178)]);
}

/// Each defined byte leads back from its unit, so that no two have the same; and no unit but theirs has a byte.
#[test]
fn there_and_back() {
    let defined: Vec<(u8, u16)> = (0..=u8::MAX).filter_map(|byte| unit(byte).map(|unit| (byte, unit))).collect();
    assert_eq!(defined.len(), 251);
    assert!(defined.iter().all(|(from, unit)| byte(*unit) == Some(*from)));
    let back: Vec<(u16, u8)> = (0..=u16::MAX).filter_map(|unit| byte(unit).map(|byte| (unit, byte))).collect();
    assert_eq!(back.len(), 251);
    assert!(back.iter().all(|(from, byte)| unit(*byte) == Some(*from)));
}

/// All defined bytes in a row, and again, from a place on, as many as are asked for.
fn row(from: usize, length: usize) -> (Vec<u8>, Vec<u16>) {
    let defined = (0..=u8::MAX).filter_map(|byte| unit(byte).map(|unit| (byte, unit)));
    defined.collect::<Vec<_>>().into_iter().cycle().skip(from).take(length).unzip()
}

/// Lists of every length up to 70 and some long ones, over outputs of none, one entry less, as many, one more and many more.
#[test]
fn lists_are_converted_entry_by_entry() {
    for length in (0..=70).chain([251, 256, 1000, 65_537]) {
        let (bytes, units) = row(length * 7, length);
        for room in [0, length.saturating_sub(1), length, length + 1, 2 * length + 9] {
            assert_eq!(to_units(&bytes, room), written(&units, room, UNIT), "{length} bytes, room for {room}");
            assert_eq!(to_bytes(&units, room), written(&bytes, room, BYTE), "{length} units, room for {room}");
        }
    }
}

/// Lists that begin at any address, and outputs too: what the compiler makes of a loop may depend on it.
#[test]
fn lists_may_begin_anywhere() {
    let (bytes, units) = row(100, 64);
    for (from, to) in (0..8).flat_map(|from| (0..8).map(move |to| (from, to))) {
        let (mut wide, mut narrow) = (vec![UNIT; 80], vec![BYTE; 80]);
        assert_eq!(cp1252_to_units(&bytes[from..], &mut wide[to..]), Ok(64 - from));
        assert_eq!(cp1252_to_bytes(&units[from..], &mut narrow[to..]), Ok(64 - from));
        let end = to + 64 - from;
        assert!(wide[to..end] == units[from..] && narrow[to..end] == bytes[from..], "{from} {to}");
        assert!(wide[..to].iter().chain(&wide[end..]).all(|unit| *unit == UNIT) && narrow[..to].iter().chain(&narrow[end..]).all(|byte| *byte == BYTE));
    }
}

/// An undefined entry at each place of lists of many lengths: refused with 14 whatever the room is, and nothing is written.
#[test]
fn an_undefined_entry_is_found_at_every_place_before_the_room_counts() {
    let no_bytes = [0x80, 0x81, 0x9f, 0x100, 0x178 + 1, 0x20ab, 0xd83d, 0xfffd, 0xffff];
    for length in (1..=40).chain([251, 300]) {
        let (bytes, units) = row(length, length);
        for place in 0..length {
            let (mut bytes, mut units) = (bytes.clone(), units.clone());
            bytes[place] = UNDEFINED[(place + length) % UNDEFINED.len()];
            units[place] = no_bytes[(place + length) % no_bytes.len()];
            for room in [0, place, length - 1, length, length + 1] {
                assert_eq!(to_units(&bytes, room), undefined(room, UNIT), "{length} bytes, the one at {place}, room for {room}");
                assert_eq!(to_bytes(&units, room), undefined(room, BYTE), "{length} units, the one at {place}, room for {room}");
            }
        }
    }
}

#[test]
fn a_refusal_says_what_holds_of_a_conversion() {
    let told = |converted: Result<usize, Refusal>| converted.expect_err("a refusal").to_string();
    let undefined = "refusal 14: a byte, or a unit on the way back, stands for nothing in code page 1252; \
        show the units as they are, or look for the drawing's own code page";
    assert_eq!([told(cp1252_to_units(&[0x81], &mut [0])), told(cp1252_to_bytes(&[0x81], &mut [0]))], [undefined; 2]);
    let short = "refusal 11: the output is shorter than the input; lend an output that is as long as the input";
    assert_eq!([told(cp1252_to_units(&[0x80], &mut [])), told(cp1252_to_bytes(&[0x20ac], &mut []))], [short; 2]);
}

/// Every text of one character: its bytes lead back, or there are none.
#[test]
fn texts_are_encoded_and_decoded() {
    let page = CodePage::Ansi1252;
    let mut encoded = 0;
    for character in '\0'..=char::MAX {
        match page.encode(&character.to_string()) {
            Ok(bytes) => {
                encoded += 1;
                assert_eq!((bytes.len(), page.decode(&bytes).as_deref()), (1, Ok(character.to_string().as_str())));
            }
            Err(refusal) => assert_eq!(refusal.reason, Reason::UndefinedCharacter, "{character:?}"),
        }
    }
    assert_eq!(encoded, 251);
    let all: Vec<u8> = row(0, 251).0;
    assert_eq!(page.encode(&page.decode(&all).expect("defined bytes")), Ok(all));
    assert_eq!((page.decode(&[]), page.encode("")), (Ok(String::new()), Ok(Vec::new())));
}
