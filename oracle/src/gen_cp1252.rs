//! Requests that convert by code page 1252, and back: first fixed ones, then random lists, most of whose entries are defined.

use crate::cp1252;
use crate::rng::Rng;

/// The bytes that the mapping file leaves undefined, and units that no byte has: theirs as they stand, others of their neighbourhood, the ends of the
/// surrogates and of all units, and such whose low or high byte alone would do.
const NO_BYTES: [u8; 5] = [0x81, 0x8d, 0x8f, 0x90, 0x9d];
const NO_UNITS: [u16; 20] = [
    0x0080, 0x0081, 0x008d, 0x009f, 0x0100, 0x0141, 0x0151, 0x017f, 0x0193, 0x02c7, 0x2012, 0x20ab, 0x20ad, 0x4100, 0xd800, 0xdbff, 0xdc00, 0xdfff, 0xfffe,
    0xffff,
];

/// From so many requests on every unit is among them, alone.
const ENOUGH_FOR_ALL: u64 = 70_000;

/// The longest list that is made at random.
const LONGEST: usize = 300;

#[derive(Clone, Copy, PartialEq)]
enum Way {
    ToUnits,
    ToBytes,
}

/// A list that is asked for: entries as their numbers, of two or four digits each.
fn line(way: Way, entries: &[u16], room: Option<u64>) -> String {
    let (name, digits) = match way {
        Way::ToUnits => ("cp1252", 2),
        Way::ToBytes => ("uncp1252", 4),
    };
    let list: String = entries.iter().map(|entry| format!("{entry:0digits$x}")).collect();
    let list = if entries.is_empty() { "-".to_string() } else { list };
    with_room(format!("{name} {list}"), room)
}

fn with_room(line: String, room: Option<u64>) -> String {
    match room {
        Some(room) => format!("{line} L {room}"),
        None => line,
    }
}

/// The fixed requests: each byte alone, lists with an undefined entry at each place, every sort of room, and, where so many are asked for, each unit alone.
pub fn first(count: u64) -> Vec<String> {
    let mut lines: Vec<String> = (0..=255).map(|byte| line(Way::ToUnits, &[byte], None)).collect();
    for way in [Way::ToUnits, Way::ToBytes] {
        lines.extend(at_each_place(way));
        lines.extend(rooms(way));
    }
    // Zeros by their number: none, some, and more than 16 bits count.
    for list in ["z0", "z0 L 0", "z3", "z3 L 2", "z3 L 3", "z3 L 4", "z65537", "z65537 L 65536", "z65537 L 1"] {
        lines.push(format!("cp1252 {list}"));
    }
    lines.extend(NO_REQUESTS.map(str::to_string));
    if count >= ENOUGH_FOR_ALL {
        lines.extend((0..=u16::MAX).map(|unit| line(Way::ToBytes, &[unit], None)));
    } else {
        lines.extend(NO_UNITS.map(|unit| line(Way::ToBytes, &[unit], None)));
    }
    lines
}

/// Lists of nine entries with an undefined one at each place, with room and without.
fn at_each_place(way: Way) -> Vec<String> {
    let (good, undefined): (u16, Vec<u16>) = match way {
        Way::ToUnits => (0xfc, NO_BYTES.map(u16::from).to_vec()),
        Way::ToBytes => (0x20ac, NO_UNITS.to_vec()),
    };
    let mut lines = Vec::new();
    for place in 0..9 {
        for entry in &undefined {
            let mut entries = [good; 9];
            entries[place] = *entry;
            lines.push(line(way, &entries, None));
        }
        let mut entries = [good; 9];
        entries[place] = undefined[place % undefined.len()];
        lines.extend([0, 8, 9, 10].map(|room| line(way, &entries, Some(room))));
    }
    lines
}

/// Lists of some lengths, and every sort of room beside the length.
fn rooms(way: Way) -> Vec<String> {
    let entry = match way {
        Way::ToUnits => 0x80,
        Way::ToBytes => 0x20ac,
    };
    let mut lines = Vec::new();
    for length in [0, 1, 2, 12, 255, 256, 257] {
        let (entries, exact) = (vec![entry; length], length as u64);
        lines.push(line(way, &entries, None));
        for room in [0, exact.saturating_sub(1), exact, exact + 1, 1 << 32, (1 << 32) + exact, 1 << 63, u64::MAX] {
            lines.push(line(way, &entries, Some(room)));
        }
    }
    lines
}

/// What is no request, though it looks like one.
const NO_REQUESTS: [&str; 24] = [
    "cp1252", "uncp1252", "cp1252 4", "cp1252 4g", "cp1252 414", "cp1252 0x41", "cp1252 z", "cp1252 z-1", "cp1252 z18446744073709551616", "cp1252 41 42",
    "cp1252 41 L", "cp1252 41 L -1", "cp1252 41 L +1", "cp1252 41 L 18446744073709551616", "cp1252 41 L 1 1", "cp1252 41 l 1", "cp1252 - -", "uncp1252 41",
    "uncp1252 00414", "uncp1252 004g", "uncp1252 z1", "uncp1252 0041 L", "uncp1252 0041 L x", "uncp1252 0041 L 1 C 1",
];

pub fn any(rng: &mut Rng) -> String {
    if rng.one_in(60) {
        return rng.pick(&NO_REQUESTS).to_string();
    }
    let way = if rng.bit() { Way::ToUnits } else { Way::ToBytes };
    let length = if rng.bit() { rng.index(14) } else { rng.index(LONGEST + 1) };
    let mut entries: Vec<u16> = (0..length).map(|_| defined(rng, way)).collect();
    if length > 0 && rng.one_in(3) {
        for _ in 0..rng.pick(&[1, 1, 1, 2, 9]) {
            entries[rng.index(length)] = undefined(rng, way);
        }
    }
    let room = if rng.bit() { None } else { Some(room(rng, length as u64)) };
    if way == Way::ToUnits && rng.one_in(40) {
        return with_room(format!("cp1252 z{length}"), room);
    }
    let line = line(way, &entries, room);
    if rng.one_in(3) { upper_digits(&line) } else { line }
}

/// An entry that is converted, those from 80 to 9F (hexadecimal) and their units more often than others.
fn defined(rng: &mut Rng, way: Way) -> u16 {
    loop {
        let byte = if rng.bit() { 0x80 + rng.below(0x20) as u8 } else { rng.next() as u8 };
        match (way, cp1252::page().units[usize::from(byte)]) {
            (Way::ToUnits, Some(_)) => return u16::from(byte),
            (Way::ToBytes, Some(unit)) => return unit,
            (_, None) => {}
        }
    }
}

/// An entry that is mostly not: of units any, or one beside or near in its bits to one that is.
fn undefined(rng: &mut Rng, way: Way) -> u16 {
    let good = defined(rng, way);
    match way {
        Way::ToUnits => u16::from(rng.pick(&NO_BYTES)),
        Way::ToBytes => {
            let any = rng.next() as u16;
            rng.pick(&[rng.clone().pick(&NO_UNITS), any, any & 0xff | 0x80, good + 1, good ^ 0x8000, good | 0x0100, good.swap_bytes(), u16::MAX])
        }
    }
}

/// Around the length, and far from it.
fn room(rng: &mut Rng, length: u64) -> u64 {
    let fewer = rng.below(length + 1);
    rng.pick(&[length, length, length + 1, length.saturating_sub(1), length.saturating_sub(1), fewer, 0, (1 << 32) + fewer, (1 << 63) + length, u64::MAX])
}

/// The line with its hexadecimal digits in upper case.
fn upper_digits(line: &str) -> String {
    match line.split_once(' ') {
        Some((name, rest)) => format!("{name} {}", rest.to_uppercase()),
        None => line.to_string(),
    }
}
