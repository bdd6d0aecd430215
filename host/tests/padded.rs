//! Padded names through the wrapper: pattern names and gradient names, inline and from a string reader, by both kinds of doubles, read and moved.

mod layouts;

use dwg_hatch::{HatchBody, Name, StringReader, Text};
use layouts::{Bits, Numbers, Plan};

/// A name as it is laid out, its closing zeros too.
fn laid(name: &str, wide: bool) -> Name {
    if wide { Name::Characters(name.to_string()) } else { Name::Bytes(name.as_bytes().to_vec()) }
}

/// What a name is read as: without one closing zero, and whether there was one.
fn wanted(name: &str, wide: bool) -> (Name, bool) {
    (laid(name.strip_suffix('\0').unwrap_or(name), wide), name.ends_with('\0'))
}

/// A body of a release with these names of its gradient and its pattern.
fn plan(n: &mut Numbers, release: u64, gradient: bool, names: [&str; 2], reader: bool) -> [Bits; 2] {
    let plan = Plan::new(n, release, reader);
    Plan { gradient, names: names.map(|name| laid(name, reader || release >= 4)), ..plan }.lay_out(n, reader)
}

const NAMES: [&str; 6] = ["", "\0", "NET", "NET\0", "NET\0\0", "\0NET"];

/// Every release, with a reader and without, every name of the pattern with every name of the gradient, which may be absent.
#[test]
fn both_names_say_whether_they_are_padded() {
    let mut n = Numbers(0x1234_5678_9abc_def1);
    for (turn, (release, reader)) in (1..=7).flat_map(|release| [(release, false), (release, true)]).enumerate() {
        for (at, pattern) in NAMES.iter().enumerate() {
            for gradient in NAMES {
                let present = release >= 3 && (turn + at) % 3 != 0;
                let [main, strings] = plan(&mut n, release, present, [gradient, pattern], reader);
                let (payload, text, wide) = (main.bytes(200), strings.bytes(0), reader || release >= 4);
                let strings = reader.then_some(StringReader { payload: &text, start: 0, end: strings.0.len() });
                let body = HatchBody { payload: &payload, start: 0, release_number: release, strings };
                let typed = body.read_bits().expect("a hatch");
                assert_eq!((typed.pattern_name, typed.hatch.pattern_name.padded), wanted(pattern, wide));
                let padded = typed.hatch.gradient.as_ref().map(|fill| fill.name.padded);
                assert_eq!(typed.gradient_name.zip(padded), present.then(|| wanted(gradient, wide)));
                // The other kind of doubles gives the same texts.
                let (bits, doubles) = (typed.hatch, body.read().expect("a hatch").hatch);
                assert_eq!((bits.pattern_name, bits.gradient.map(|fill| fill.name)), (doubles.pattern_name, doubles.gradient.map(|fill| fill.name)));
            }
        }
    }
}

/// A string reader that has come to its end gives empty names that are not padded, also where zeros lie behind it.
#[test]
fn a_reader_at_its_end_gives_no_padded_name() {
    let mut n = Numbers(99);
    let [main, strings] = plan(&mut n, 5, true, ["NET\0", "NET\0"], true);
    let (payload, zeros) = (main.bytes(200), [strings.bytes(0), vec![0; 8]].concat());
    let padded = |start: usize, end: usize| {
        let strings = StringReader { payload: &zeros, start, end };
        let typed = HatchBody { payload: &payload, start: 0, release_number: 5, strings: Some(strings) }.read_bits().expect("a hatch");
        let texts = [typed.hatch.gradient.expect("a gradient").name, typed.hatch.pattern_name];
        texts.map(|text: Text| (text.count, text.padded))
    };
    assert_eq!(padded(0, strings.0.len()), [(3, true), (3, true)]);
    // Behind both names there are zeros alone: a reader with bits left reads lengths of 0, and one at its end reads nothing.
    let end = strings.0.len();
    assert_eq!([padded(end, 8 * zeros.len()), padded(end, end), padded(0, 0)], [[(0, false); 2]; 3]);
}

/// A record is handed back with its padded names, and moved all the same.
#[test]
fn a_hatch_with_padded_names_is_moved() {
    let payload = [&[0xa9, 0x40, 0x90, 0x40, 0x2a, 0x90, 0x10][..], &[0; 16]].concat();
    let mut typed = dwg_hatch::read_hatch(&payload, 0, dwg_hatch::Release::R2000).expect("a hatch");
    assert_eq!((typed.pattern_name.as_str(), typed.hatch.pattern_name.padded, typed.seed_points.len()), (Some("A"), true, 1));
    typed.move_origin(1.0, 2.0).expect("it can be moved");
    assert_eq!((typed.seed_points[0].x, typed.seed_points[0].y, typed.hatch.pattern_name.padded), (-1.0, -2.0, true));
}
