//! Requests that move an origin: hatches as the encoder lays them out, altered in doubles alone, and spoiled in every way that is turned away.

use crate::doubles;
use crate::encode::Pen;
use crate::encode_hatch::{self, Texts};
use crate::gen_move_caps::PADDINGS;
use crate::move_model::{self, Number, Word};
use crate::move_request;
use crate::rng::Rng;

/// The bound, and the doubles beside it.
const BOUND: u64 = 0x4270_0000_0000_0000;
const SIGN: u64 = 1 << 63;
const ONE: u64 = doubles::ONE;

/// A hatch in the request's fields, before they are written.
struct Hatch {
    /// What stands before the lists in an answer, with `nw` and `nn`.
    fields: Vec<(String, String)>,
    words: Vec<u32>,
    numbers: Vec<u64>,
    origin: [u64; 2],
}

impl Hatch {
    fn field(&mut self, name: &str) -> &mut String {
        let at = self.fields.iter().position(|(known, _)| known == name).expect("a field of an answer");
        &mut self.fields[at].1
    }

    fn set(&mut self, name: &str, value: impl ToString) {
        *self.field(name) = value.to_string();
    }

    fn count(&mut self, name: &str) -> u64 {
        self.field(name).parse().expect("a count")
    }

    /// The fields in a random order; `nw` and `nn` are left out at times where the lists have just these lengths.
    fn line(mut self, rng: &mut Rng) -> String {
        let lengths = [("nw", self.words.len()), ("nn", self.numbers.len())];
        for (name, length) in lengths {
            if self.count(name) == length as u64 && rng.bit() {
                self.fields.retain(|(known, _)| known != name);
            }
        }
        let words: Vec<String> = self.words.iter().map(u32::to_string).collect();
        let numbers: Vec<String> = self.numbers.iter().map(|bits| format!("{bits:016x}")).collect();
        let list = |items: Vec<String>| if items.is_empty() { "-".to_string() } else { items.join(",") };
        self.fields.extend([("words".to_string(), list(words)), ("nums".to_string(), list(numbers))]);
        for last in (1..self.fields.len()).rev() {
            self.fields.swap(last, rng.index(last + 1));
        }
        let fields: Vec<String> = self.fields.iter().map(|(name, value)| format!("{name}={value}")).collect();
        format!("move {:016x} {:016x} {}", self.origin[0], self.origin[1], fields.join(" "))
    }

    /// What its words and numbers are; nothing where it was spoiled before.
    fn notes(&self) -> move_model::Notes {
        let zero = "0000000000000000";
        let fields: Vec<String> = self.fields.iter().map(|(name, value)| format!("{name}={value}")).collect();
        let all: Vec<&str> = [zero, zero].into_iter().chain(fields.iter().map(String::as_str)).collect();
        let mut request = move_request::parse(&all).expect("a record's fields");
        (request.words, request.numbers) = (self.words.clone(), self.numbers.clone());
        move_model::notes(&request).unwrap_or_default()
    }
}

/// A hatch as it was laid out, in the drawing's own plane, its coordinates near enough; all other numbers are any.
fn laid(rng: &mut Rng) -> Hatch {
    let release = 1 + rng.below(7);
    let mut pen = Pen::clean(rng);
    encode_hatch::hatch(&mut pen, &mut Texts { strings: None }, release);
    let answer = pen.laid.hatch('m', rng.below(9));
    let fields = answer.split(' ').filter_map(|field| field.split_once('=')).filter(|(name, _)| !["words", "nums"].contains(name));
    let fields = fields.map(|(name, value)| (name.to_string(), value.to_string())).collect();
    let (words, numbers) = (pen.laid.words.clone(), pen.laid.numbers.clone());
    let mut hatch = Hatch { fields, words, numbers, origin: [near(rng), near(rng)] };
    let zero = |rng: &mut Rng| if rng.one_in(4) { SIGN } else { 0 };
    let (x, y) = (zero(rng), zero(rng));
    hatch.set("ext", format!("{x:016x},{y:016x},{ONE:016x}"));
    let notes = hatch.notes();
    for (number, what) in hatch.numbers.iter_mut().zip(&notes.numbers) {
        if *what != Number::Other {
            *number = near(rng);
        }
    }
    hatch
}

/// A number within 2^40 of 0, the bounds and both zeros among them.
fn near(rng: &mut Rng) -> u64 {
    let sign = if rng.bit() { SIGN } else { 0 };
    let any = rng.next() & 0x000f_ffff_ffff_ffff;
    match rng.below(12) {
        0 => sign | rng.pick(&[BOUND, BOUND - 1, 0, 1, 0x000f_ffff_ffff_ffff, ONE]),
        1 => sign | any, // zero or subnormal
        2 | 3 => sign | (1023 + rng.below(40)) << 52 | any,
        4 => sign | (1023 - rng.below(60)) << 52 | any,
        5 => sign | rng.below(0x427) << 52 | any,
        6..=8 => (steps(rng) / 1_048_576.0).to_bits(), // multiples of 1/1,048,576 within 2^30
        _ => (4_650_000.0 + rng.below(4_000_000) as f64 / 1000.0).to_bits(),
    }
}

fn steps(rng: &mut Rng) -> f64 {
    let most = 1u64 << 50;
    match rng.below(6) {
        0 => rng.pick(&[most as f64, -(most as f64)]),
        _ => rng.below(2 * most + 1) as f64 - most as f64,
    }
}

/// No number within 2^40 of 0.
fn far(rng: &mut Rng) -> u64 {
    let sign = if rng.bit() { SIGN } else { 0 };
    let nan = 0x7ff0_0000_0000_0000 | (rng.next() & 0x000f_ffff_ffff_ffff).max(1);
    let above = (0x427 + rng.below(0x3d8)) << 52 | (rng.next() & 0x000f_ffff_ffff_ffff).max(1);
    sign | rng.pick(&[BOUND + 1, BOUND + 1, 0x7ff0_0000_0000_0000, 0x7ff8_0000_0000_0000, 0x7fef_ffff_ffff_ffff, nan, above])
}

pub fn any(rng: &mut Rng) -> String {
    if rng.one_in(60) {
        return bad(rng);
    }
    let mut hatch = laid(rng);
    let spoils = [0, 0, 1, 1, 1, 1, 2];
    for _ in 0..rng.pick(&spoils) {
        spoil(rng, &mut hatch);
    }
    hatch.line(rng)
}

/// One thing altered; some of them change nothing of the outcome.
fn spoil(rng: &mut Rng, hatch: &mut Hatch) {
    match rng.below(21) {
        0..=3 => word(rng, hatch),
        4 | 5 => record_count(rng, hatch),
        6 => lengths(rng, hatch),
        7 => shorter(rng, hatch),
        8 | 9 => longer(rng, hatch),
        10 => {
            let name = rng.pick(&["solid", "assoc", "pdouble"]);
            let value = rng.pick(&[0, 1, 2, 3, 128, 255]);
            hatch.set(name, value);
        }
        11 => {
            let any = rng.next();
            hatch.set("gn", rng.pick(&[0, 1, 15, 16, 17, 256, u64::MAX, any]));
        }
        12 => hatch.set("solid", 1), // with pattern lines at times
        13 | 14 => extrusion(rng, hatch),
        15 => hatch.origin[rng.index(2)] = far(rng),
        16 => {
            let padding = rng.pick(&[":0", ":1"]); // whatever the units are: a move looks at no name
            name(rng, hatch, padding);
        }
        _ => coordinate(rng, hatch),
    }
}

/// A word by what it is, if record and lists are still whole.
fn word(rng: &mut Rng, hatch: &mut Hatch) {
    let notes = hatch.notes().words;
    if notes.is_empty() {
        return;
    }
    let at = rng.index(notes.len());
    let (before, any) = (hatch.words[at], rng.next() as u32);
    hatch.words[at] = match notes[at] {
        Word::Flags => rng.pick(&[before ^ 2, before ^ 4, any]),
        Word::Switch => rng.pick(&[2, 3, 256, 1 << 31, u32::MAX, 1 - before.min(1)]),
        Word::Count(cap) => rng.pick(&[cap, cap + 1, before.wrapping_add(1), before.wrapping_sub(1), u32::MAX, 1 << 31, any]),
        Word::Kind => rng.pick(&[0, 5, 6, before.wrapping_add(256), u32::MAX, 1, 2, 3, 4]),
        Word::Degree => any,
    };
}

fn record_count(rng: &mut Rng, hatch: &mut Hatch) {
    let (name, cap) = rng.pick(&[("npaths", 10_000), ("nlines", 4_096), ("nseeds", 1_024)]);
    let (before, any) = (hatch.count(name), rng.next());
    // Counts whose double, or whose low half, would fit.
    let wraps = [1 << 63, (1u64 << 63).wrapping_add(before), (1u64 << 32).wrapping_add(before), u64::MAX];
    let beside = [before.wrapping_add(1), before.wrapping_sub(1), cap, cap + 1, 0, any];
    let value = if rng.bit() { rng.pick(&wraps) } else { rng.pick(&beside) };
    hatch.set(name, value);
}

/// Lengths used that are not what the counts come to.
fn lengths(rng: &mut Rng, hatch: &mut Hatch) {
    let name = rng.pick(&["nw", "nn"]);
    let (before, any) = (hatch.count(name), rng.next());
    hatch.set(name, rng.pick(&[before.wrapping_sub(1), before.wrapping_add(1), 0, u64::MAX, 1 << 61, (1u64 << 32).wrapping_add(before), any]));
}

/// A list without its last entry, or with fewer, and the length used as it was.
fn shorter(rng: &mut Rng, hatch: &mut Hatch) {
    let gone = 1 + if rng.bit() { 0 } else { rng.index(4) };
    if rng.bit() {
        hatch.words.truncate(hatch.words.len().saturating_sub(gone));
    } else {
        hatch.numbers.truncate(hatch.numbers.len().saturating_sub(gone));
    }
}

/// Entries past the lengths used, or one more that is used.
fn longer(rng: &mut Rng, hatch: &mut Hatch) {
    let more = 1 + rng.index(4);
    hatch.words.extend((0..more).map(|_| rng.next() as u32));
    hatch.numbers.extend((0..more).map(|_| doubles::pattern(rng)));
    if rng.one_in(3) {
        let name = rng.pick(&["nw", "nn"]);
        let used = hatch.count(name).wrapping_add(1);
        hatch.set(name, used);
    }
}

fn extrusion(rng: &mut Rng, hatch: &mut Hatch) {
    let mut parts = [0, 0, ONE];
    let at = rng.index(3);
    let any = doubles::pattern(rng);
    let others = [SIGN, 1, SIGN | 1, ONE, ONE | SIGN, ONE + 1, ONE - 1, 0, 0x7ff8_0000_0000_0000, 0x7ff0_0000_0000_0000, any];
    parts[at] = rng.pick(&others);
    hatch.set("ext", parts.map(|part| format!("{part:016x}")).join(","));
}

/// A number that is no coordinate within 2^40, wherever it stands; mostly where a coordinate stands, if there is one.
fn coordinate(rng: &mut Rng, hatch: &mut Hatch) {
    if hatch.numbers.is_empty() {
        return;
    }
    let at = rng.index(hatch.numbers.len());
    hatch.numbers[at] = if rng.one_in(5) { near(rng) } else { far(rng) };
}

/// A name of the record with another end behind its units.
fn name(rng: &mut Rng, hatch: &mut Hatch, padding: &str) {
    let text = hatch.field(rng.pick(&["gname", "name"]));
    text.truncate(text.rfind(':').expect("a text has parts"));
    text.push_str(padding);
}

/// What is no request, or just is one.
fn bad(rng: &mut Rng) -> String {
    let mut hatch = laid(rng);
    if rng.one_in(3) {
        let padding = rng.pick(&PADDINGS);
        name(rng, &mut hatch, padding);
    }
    let line = hatch.line(rng);
    let more = [
        "solid=1", "words=-", "gflag=1", "gflag=4294967296", "nothing=1", "L 1 1", "solid", "=", "grad=2", "style=65536", "solid=256", "solid=+1", "nums=0",
        "name=m:8:0:0:-", "name=m:8:0:0:-:1", "gn=18446744073709551616", "ext=0000000000000000",
    ];
    match rng.below(5) {
        0 => format!("{line} {}", rng.pick(&more)),
        1 => line.replacen("move ", "move 0", 1),
        2 => line.replacen('=', "", 1),
        3 => line,
        _ => format!("move {:016x} {:016x} {}", near(rng), near(rng), rng.pick(&more)),
    }
}
