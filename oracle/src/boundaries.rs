//! Requests that stand at the front of every run: refusals beside each other, layouts cut at each field's end and one bit
//! short of it, a reader's end bit at every place, long counts at their caps and one above.

use crate::bits::{self, Bits};
use crate::encode::Pen;
use crate::encode_hatch::{self, Texts};
use crate::encode_prefix;
use crate::encode_text;
use crate::gen_long;
use crate::rng::Rng;
use crate::spoil;

/// A layout's payload cut at each field's end and one bit short, as lines that begin with a kind and a release.
fn cuts(rng: &mut Rng, body: &Bits, head: &str) -> Vec<String> {
    let mut lines = Vec::new();
    let mut places: Vec<usize> = body.ends.iter().flat_map(|end| [end.saturating_sub(1), *end]).collect();
    places.dedup();
    for place in places {
        let made = spoil::cut(rng, body, place);
        lines.push(format!("{head} {} {}", made.start, bits::hex(&made.bits)));
    }
    lines
}

/// A body of moderate length whose longest field lists are not empty.
fn body(rng: &mut Rng, write: impl Fn(&mut Pen)) -> Bits {
    let mut best = Bits::default();
    for _ in 0..40 {
        let mut pen = Pen::new(rng);
        write(&mut pen);
        let fits = pen.out.bits.len() < 3_000 && pen.out.ends.len() < 120;
        if fits && pen.out.ends.len() > best.ends.len() {
            best = pen.out;
        }
    }
    best
}

pub fn tv(rng: &mut Rng) -> Vec<String> {
    let mut lines = Vec::new();
    for release in 1..=7 {
        let body = body(rng, |pen| drop(encode_text::text(pen, encode_text::width(release))));
        let every_bit = Bits { ends: (1..=body.bits.len()).collect(), ..body };
        lines.extend(cuts(rng, &every_bit, &format!("tv {release}")));
    }
    lines
}

/// One byte more than the limit.
const TOO_LONG: &str = "z268435457";

pub fn prefix(rng: &mut Rng) -> Vec<String> {
    let mut lines = Vec::new();
    for (release, start) in [(2, 0), (2, 32), (2, 33), (8, 0), (8, 33)] {
        lines.extend(["85D08740", TOO_LONG].map(|main| format!("prefix {release} {start} {main}")));
    }
    for release in 1..=7 {
        let body = body(rng, |pen| encode_prefix::prefix(pen, release));
        lines.extend(cuts(rng, &body, &format!("prefix {release}")));
        // Sizes whose second or third byte counts, and an XDATA size that would be negative with a sign.
        lines.extend([(257, 256), (32_768, 65_537)].map(|(xdata, graphics)| long_prefix(rng, release, xdata, graphics)));
    }
    lines
}

fn long_prefix(rng: &mut Rng, release: u64, xdata: u64, graphics: u64) -> String {
    let mut pen = Pen::clean(rng);
    encode_prefix::long(&mut pen, release, xdata, graphics);
    let made = spoil::whole(rng, &pen.out);
    format!("prefix {release} {} {}", made.start, bits::hex(&made.bits))
}

/// The order of refusals: each of release, payloads and starts right and wrong beside the others.
fn order() -> Vec<String> {
    let mut lines = Vec::new();
    for (release, start) in [(2, 0), (2, 24), (2, 25), (8, 0), (8, 25)] {
        for main in ["A9AAA0", TOO_LONG] {
            lines.push(format!("hatch {release} {start} {main}"));
            for strings in ["0 16 8080", "16 16 8080", "17 99 8080", "5 99 z268435457", "17 99 z268435457"] {
                lines.push(format!("hatchs {release} {start} {main} {strings}"));
            }
        }
    }
    let lists = ["hatch 2 0 A9A406AA80 L 2 0", "hatch 2 99 A9A406AA80 L 2 0", "hatch 2 0 A9A406AAC0 L 0 0"];
    lines.extend(lists.map(str::to_string));
    lines
}

pub fn hatch(rng: &mut Rng) -> Vec<String> {
    let mut lines = order();
    for which in 0..gen_long::CASES {
        let release = 1 + rng.below(7);
        lines.extend([0, 1].map(|above| gen_long::case(rng, which, release, above)));
    }
    for release in 1..=7 {
        let body = body(rng, |pen| encode_hatch::hatch(pen, &mut Texts { strings: None }, release));
        lines.extend(cuts(rng, &body, &format!("hatch {release}")));
    }
    for release in [2, 3, 7] {
        lines.extend(reader(rng, release));
    }
    lines
}

/// The main payload whole, the string payload's end bit at each place from its start to past its end.
fn reader(rng: &mut Rng, release: u64) -> Vec<String> {
    let mut main = Pen::new(rng);
    let mut strings = Pen::new(rng);
    encode_hatch::hatch(&mut main, &mut Texts { strings: Some(&mut strings) }, release);
    let (body, text) = (spoil::whole(rng, &main.out), spoil::whole(rng, &strings.out));
    let line = |end: usize| {
        let (main_hex, text_hex) = (bits::hex(&body.bits), bits::hex(&text.bits));
        format!("hatchs {release} {} {main_hex} {} {end} {text_hex}", body.start, text.start)
    };
    let from = (text.start as usize).saturating_sub(1);
    (from..text.bits.len() + 2).take(150).map(line).collect()
}
