//! Drawings in which one number is wrong, and drawings built to mislead.

use dwg_hatch::{HatchPath, HatchPathSegments};

use super::layouts::{Bits, Numbers, Plan};
use super::records::{block, drawing, end, modular_short, prefix_of, FIRST_OBJECT, HATCH};
use super::{bounded, cut_of, draw_of, hatch, line, read_of, record};
use crate::commands::input::Kind;

/// The only line that tells what is wrong, behind the file's name.
fn wrong(bytes: &[u8]) -> String {
    let given = cut_of("wrong", bytes, "");
    bounded(&given, bytes, 0);
    assert_eq!((given.status, given.errors.len()), (1, 1), "{:?}", given.errors);
    given.errors[0].split_once("wrong.dwg: ").expect("the file's name").1.to_string()
}

/// A drawing with one object, whose handle is 20 by the map.
fn one(payload: &[u8]) -> Vec<u8> {
    drawing(&[modular_short(payload.len()), payload.to_vec()].concat(), &[block(&[(0x20, FIRST_OBJECT as i64)]), end()].concat())
}

/// What an object begins with, and bits behind it.
fn begin(type_number: u64, size: u64, more: &[bool]) -> Vec<u8> {
    let mut bits = Bits(Vec::new());
    bits.number(1, 2);
    bits.raw(type_number, 1);
    bits.raw(size, 4);
    bits.handle(0x20);
    bits.0.extend(more);
    bits.bytes(0)
}

#[test]
fn every_number_is_tested_before_it_is_used() {
    let whole = one(&line(0x20));
    let (length, map) = (whole.len(), whole.len() - 10);
    let changed = |at: usize, value: [u8; 4]| [&whole[..at], &value, &whole[at + 4..]].concat();
    let placed = |place: i64| drawing(&[0; 4], &[block(&[(0x20, place)]), end()].concat());
    let past = |begin: u64, end: u64| format!("its object map would lie at bytes {begin} to {end}, and it has {length} bytes");
    let in_map = |wrong: &str| format!("its object map is wrong: its {wrong}, and reading ends here");
    let of_section = format!("and its section ends at byte {length}");
    let cases = [
        // Section locators: none, 2^32 - 1, more than there is room for, none of the map; the map past the end, by its place and by its length.
        (changed(0x15, [0; 4]), "none of its 0 section locators is section 2, the object map".to_string()),
        (changed(0x15, [0xff; 4]), format!("it states 4294967295 section locators at byte 21, and has {length} bytes")),
        (changed(0x15, [8, 0, 0, 0]), format!("it states 8 section locators at byte 21, and has {length} bytes")),
        (changed(0x15, [2, 0, 0, 0]), "none of its 2 section locators is section 2, the object map".to_string()),
        (changed(0x2c, [0xff; 4]), past(u32::MAX.into(), u64::from(u32::MAX) + 10)),
        (changed(0x30, [0xff; 4]), past(map as u64, map as u64 + u64::from(u32::MAX))),
        (changed(0x30, [11, 0, 0, 0]), past(map as u64, length as u64 + 1)),
        // The map: no block at all, a length below its own, past its section; numbers without an end.
        (changed(0x30, [0; 4]), in_map(&format!("section ends at byte {map} without a block of length 2, which ends a map"))),
        (changed(map, [0; 4]), in_map(&format!("block at byte {map} states a length of 0 bytes, {of_section}"))),
        (changed(map, [0xff; 4]), in_map(&format!("block at byte {map} states a length of 65535 bytes, {of_section}"))),
        (changed(map, [0, 4, 0xff, 0xff]), in_map(&format!("handle at byte {} ends before its last byte", map + 2))),
        (drawing(&[], &[&[0, 32][..], &[0xff; 30], &[0; 2], &end()].concat()), in_map("handle at byte 54 is longer than any that a drawing needs")),
        // An object outside of the file; a length without an end, past the end, too short for what an object begins with.
        (placed(1000), "handle 20: the object map puts it at byte 1000, and the file has 67".to_string()),
        (placed(-1), "handle 20: the object map puts it at byte -1, and the file has 66".to_string()),
        (changed(FIRST_OBJECT, [0xff; 4]), format!("handle 20: its length at byte 52 passes the file's end at byte {length}")),
        (one(&[]), "handle 20: its type, size and handle at byte 54 cannot be read: refusal 1 at bit 0: ".to_string()),
    ];
    for (bytes, expected) in cases {
        let wrong = wrong(&bytes);
        assert!(wrong.starts_with(&expected) && wrong.ends_with("save the drawing anew"), "{wrong}\n{expected}");
    }
}

#[test]
fn an_object_that_is_wrong_is_told_by_its_handle() {
    let cases = [
        (line(0x21), "the object at byte 52, where the object map puts it, has the handle 21; "),
        (begin(78, 58 + 26, &[]), "its fields would end at bit 84, and not between its handle's end and the payload's, bits 58 and 64; "),
        (begin(19, u32::MAX.into(), &[]), "its fields would end at bit 4294967295, and not between its handle's end and the payload's, bits 58 and 64; "),
        (begin(78, 57, &[]), "its fields would end at bit 57, and not between its handle's end and the payload's, bits 58 and 64; "),
        // A hatch whose prefix is cut short, or ends behind its fields.
        (begin(78, 60, &[]), "its prefix cannot be read: refusal 1 at bit "),
        (begin(78, 60, &prefix_of(2, 0).0), "its prefix ends at bit 92, behind its fields' end at bit 60"),
    ];
    for (payload, expected) in cases {
        let wrong = wrong(&one(&payload));
        assert!(wrong.strip_prefix("handle 20: ").is_some_and(|wrong| wrong.starts_with(expected)), "{wrong}\n{expected}");
    }
}

/// A map that names the same objects again and again, block after block.
#[test]
fn a_map_that_runs_in_circles_comes_to_an_end() {
    let payload = hatch(0x20);
    let objects = [modular_short(payload.len()), payload].concat();
    let map = [block(&[(0x20, FIRST_OBJECT as i64)]).repeat(5000), end()].concat();
    let bytes = drawing(&objects, &map);
    let wrong = wrong(&bytes);
    assert!(wrong.starts_with(&format!("its objects come to more than its {} bytes, so that some lie over one another, and reading ends here", bytes.len())));
}

/// Hatches inside one another: each object's length reaches to the last one's end.
#[test]
fn objects_that_lie_over_one_another_are_told() {
    const COUNT: u64 = 4000;
    let start = |handle: u64| {
        let mut bits = Bits(Vec::new());
        bits.number(0, 2);
        bits.raw(HATCH as u64, 2);
        bits.raw(1000, 4);
        bits.handle(0x1_0000 + handle);
        bits.bytes(0)
    };
    let size = 4 + start(0).len();
    let object = |handle: u64| {
        let length = size * (COUNT - handle) as usize - 4 + 0x8000;
        [[length as u16 | 0x8000, (length >> 15) as u16].map(u16::to_le_bytes).concat(), start(handle)].concat()
    };
    let objects: Vec<u8> = (0..COUNT).flat_map(object).chain(std::iter::repeat_n(0, 0x8000)).collect();
    let pairs: Vec<(u64, i64)> = (0..COUNT).map(|handle| (0x1_0000 + handle, (FIRST_OBJECT + size * handle as usize) as i64)).collect();
    let bytes = drawing(&objects, &[pairs.chunks(1000).flat_map(block).collect(), end()].concat());
    let given = cut_of("over", &bytes, "--prefixes");
    bounded(&given, &bytes, COUNT as usize);
    assert!(given.errors.last().is_some_and(|line| line.contains("some lie over one another")), "{:?}", given.errors.last());
}

#[test]
fn of_many_objects_that_are_wrong_ten_are_told_and_the_others_counted() {
    let pairs: Vec<(u64, i64)> = (1..=60_000).map(|handle| (handle, 1_000_000)).collect();
    let bytes = drawing(&[], &[pairs.chunks(10_000).flat_map(block).collect(), end()].concat());
    let given = cut_of("many", &bytes, "");
    assert_eq!((given.status, given.errors.len()), (1, 11));
    assert!(given.errors[10].contains("of its objects 59990 more cannot be read; "), "{}", given.errors[10]);
    let read = read_of("many", &bytes, Kind::Hatch);
    assert_eq!((read.status, read.errors.len()), (1, 12));
    assert!(read.errors[11].ends_with("many.dwg: of its objects that can be read, 0, none is a hatch"), "{}", read.errors[11]);
}

#[test]
fn a_drawing_without_objects_is_cut_to_nothing() {
    let given = cut_of("none", &drawing(&[], &end()), "--prefixes");
    assert_eq!((given.status, given.output.lines().count()), (0, 2));
    assert!(given.output.ends_with("# 0 objects: hatches 0, other entities 0, of types that are not known as entities 0.\n"));
    let read = read_of("none", &drawing(&[], &end()), Kind::Hatch);
    assert_eq!((read.status, read.output.as_str(), read.errors.len()), (0, "", 1), "{:?}", read.errors);
}

/// A count of boundary handles is tested by the bits after it, and these are the handles' own: such a hatch is read from the whole object.
#[test]
fn handles_count_where_a_body_is_refused_without_them() {
    let path = HatchPath { flags: 0, segments: HatchPathSegments::Edges(Vec::new()), num_boundary_handles: 60 };
    let plan = Plan { paths: vec![path], lines: Vec::new(), seeds: Vec::new(), ..Plan::new(&mut Numbers(7), 2, false) };
    let with = |handles: usize| one(&record(0x20, HATCH, plan.lay_out(&mut Numbers(7), false).into_iter().next().expect("a body"), handles));
    assert!(read_of("handles", &with(0), Kind::Hatch).errors[0].contains(": refusal 3 at bit "));
    let read = read_of("handles", &with(60), Kind::Hatch);
    assert!(read.status == 0 && read.output.contains("; boundary handles: 60\n"), "{:?}{}", read.errors, read.output);
}

/// A body that is read, but to another bit than the drawing says: it is told, and read all the same.
#[test]
fn a_body_that_ends_elsewhere_than_the_drawing_says_is_told() {
    let plan = Plan { paths: Vec::new(), ..Plan::new(&mut Numbers(7), 2, false) };
    let with = |more: usize| {
        let [body, _] = plan.lay_out(&mut Numbers(7), false);
        one(&record(0x20, HATCH, Bits([body.0, vec![true; more]].concat()), 0))
    };
    assert_eq!(read_of("end", &with(0), Kind::Hatch).errors, [""; 0]);
    let (read, cut) = (read_of("end", &with(3), Kind::Hatch), cut_of("end", &with(3), ""));
    assert!(read.output.contains(": handle 20: hatch, ") && cut.output.contains("\nhatch 2 "), "{}{}", read.output, cut.output);
    for given in [read, cut, draw_of("end", &with(3))] {
        assert_eq!((given.status, given.errors.len()), (1, 1), "{:?}", given.errors);
        assert!(given.errors[0].contains(": handle 20: its body is read to bit ") && given.errors[0].ends_with(": do not rely on it"), "{}", given.errors[0]);
    }
}
