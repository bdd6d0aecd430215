//! Requests for hatch bodies, with a string reader and without.

use crate::answer_hatch;
use crate::bits;
use crate::encode::Pen;
use crate::encode_hatch::{self, Texts};
use crate::gen_long;
use crate::gen_prefix;
use crate::gen_strings;
use crate::request::{self, LIMIT, Request};
use crate::rng::Rng;
use crate::spoil;

pub fn any(rng: &mut Rng) -> String {
    if rng.one_in(1000) {
        return gen_long::any(rng);
    }
    let (laid, asked) = gen_prefix::releases(rng);
    if rng.one_in(150) {
        return zeros(rng, asked);
    }
    let mut main = Pen::new(rng);
    let mut strings = Pen::new(rng);
    let reader = rng.below(9) < 4;
    let lent = if reader { Some(&mut strings) } else { None };
    encode_hatch::hatch(&mut main, &mut Texts { strings: lent }, laid);
    let made = if rng.one_in(4) { spoil::whole(rng, &main.out) } else { spoil::any(rng, &main.out) };
    let body = format!("{asked} {} {}", made.start, bits::hex(&made.bits));
    let line = if reader {
        format!("hatchs {body} {}", gen_strings::fields(rng, &strings.out))
    } else {
        format!("hatch {body}")
    };
    with_lists(rng, line)
}

/// Zero bytes are a layout of releases 1 and 2 from 40 bytes on; the limit and one byte more.
fn zeros(rng: &mut Rng, release: u64) -> String {
    let many = rng.pick(&[LIMIT, LIMIT + 1]);
    let count = if rng.one_in(12) { many } else { rng.pick(&[0, 1, 38, 39, 40, 41, 300]) };
    let start = rng.below(9);
    let long = if rng.one_in(8) { many } else { 3 };
    if rng.bit() {
        format!("hatch {release} {start} z{count}")
    } else {
        format!("hatchs {release} {start} z{count} {} {} z{long}", rng.below(30), rng.below(40))
    }
}

/// Lent lengths: one short, exact, long; the needed ones are taken from the Rust's reading.
fn with_lists(rng: &mut Rng, line: String) -> String {
    if rng.below(5) < 3 {
        return line;
    }
    let Some(Request::Hatch(request)) = request::parse(&line) else {
        return line;
    };
    let (words, numbers) = match answer_hatch::read(&request) {
        Ok(reading) => (reading.lists.words.len() as u64, reading.lists.numbers.len() as u64),
        Err(_) => (rng.below(9), rng.below(9)),
    };
    let (words, numbers) = match rng.below(7) {
        0 => (words.saturating_sub(1), numbers),
        1 => (words, numbers.saturating_sub(1)),
        2 => (0, 0),
        3 => (words + rng.below(5), numbers + rng.below(5)),
        4 => (numbers, words),
        _ => (words, numbers),
    };
    format!("{line} L {words} {numbers}")
}
