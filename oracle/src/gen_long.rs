//! Counts at their caps and one above, which take long payloads; few requests are such.

use crate::bits;
use crate::doubles;
use crate::encode::Pen;
use crate::encode_hatch::{self, Texts};
use crate::encode_path::SEGMENTS;
use crate::rng::Rng;

pub fn any(rng: &mut Rng) -> String {
    let which = rng.below(CASES);
    let release = 1 + rng.below(7);
    let above = rng.below(2);
    case(rng, which, release, above)
}

pub const CASES: u64 = 9;

/// One count at its cap (`above` 0) or one above it.
pub fn case(rng: &mut Rng, which: u64, release: u64, above: u64) -> String {
    let release = if which == 8 { release.max(5) } else { release }; // fit points are from 5 on
    let (mut pen, solid) = head(rng, release, which == 0);
    let pen = &mut pen;
    match which {
        0 => lines(pen, solid, encode_hatch::LINES + above),
        1 => paths(pen, solid, encode_hatch::PATHS + above),
        2 => knots(pen, SEGMENTS + above),
        3 => seeds(pen, solid, encode_hatch::SEEDS + above),
        4 => vertices(pen, SEGMENTS + above),
        5 => edges(pen, SEGMENTS + above),
        7 => spline(pen, &[0], SEGMENTS + above),
        8 => spline(pen, &[0, 0], SEGMENTS + above),
        _ => handles(pen, solid, 1_024 + above),
    }
    let lead = pen.out.bits.len().next_multiple_of(8) - pen.out.bits.len();
    let mut all = bits::random(&mut pen.rng, lead);
    all.extend(&pen.out.bits);
    format!("hatch {release} {lead} {}", bits::hex(&all))
}

/// A head in a valid text; a solid hatch has no lines.
fn head(rng: &mut Rng, release: u64, with_lines: bool) -> (Pen, bool) {
    loop {
        let mut pen = Pen::clean(rng);
        let solid = encode_hatch::head(&mut pen, &mut Texts { strings: None }, release);
        if !(with_lines && solid) {
            return (pen, solid);
        }
    }
}

fn no_paths(pen: &mut Pen) {
    pen.bl(0);
    pen.bs(1);
    pen.bs(0);
}

fn pattern_head(pen: &mut Pen) {
    pen.bd_of(0);
    pen.bd_of(doubles::ONE);
    pen.b(true);
}

/// Lines of 12 bits each: five BD 10, BS 10. A solid hatch has none.
fn lines(pen: &mut Pen, solid: bool, count: u64) {
    no_paths(pen);
    if !solid {
        pattern_head(pen);
        pen.count_bs(count, encode_hatch::LINES);
        for _ in 0..count {
            pen.raw(0b1010_1010_1010, 12);
        }
    }
    pen.bl(0);
}

/// Paths of 6 bits each: no flags, no edges, no handles.
fn paths(pen: &mut Pen, solid: bool, count: u64) {
    pen.count(count, encode_hatch::PATHS);
    for _ in 0..count {
        pen.raw(0b10_1010, 6);
    }
    encode_hatch::tail(pen, solid, false);
}

fn edge_path(pen: &mut Pen) {
    pen.count(1, encode_hatch::PATHS);
    pen.bl(0);
}

fn spline_head(pen: &mut Pen) {
    edge_path(pen);
    pen.bl(1);
    pen.bytes(4, 1);
    pen.bl(3);
    pen.raw(0, 2);
}

/// A spline with a count of controls (after one of knots) or of fits (after two) and just as many bits.
fn spline(pen: &mut Pen, before: &[u32], count: u64) {
    spline_head(pen);
    for none in before {
        pen.bl(*none);
    }
    pen.count(count, SEGMENTS);
    random_bits(pen, count);
}

/// A spline with knots of 2 bits each and no controls; the payload ends with them.
fn knots(pen: &mut Pen, count: u64) {
    spline_head(pen);
    pen.count(count, SEGMENTS);
    pen.bl(0);
    for _ in 0..count {
        pen.raw(0b10, 2);
    }
}

fn seeds(pen: &mut Pen, solid: bool, count: u64) {
    no_paths(pen);
    if !solid {
        pattern_head(pen);
        pen.bs(0);
    }
    pen.count(count, encode_hatch::SEEDS);
    for _ in 0..2 * count {
        pen.rd();
    }
}

/// As many bits as the count, so only the cap can refuse it; the vertices then run out of bits.
fn vertices(pen: &mut Pen, count: u64) {
    pen.count(1, encode_hatch::PATHS);
    pen.bl(2);
    pen.raw(0, 2);
    pen.count(count, SEGMENTS);
    random_bits(pen, count);
}

/// The same for edges; random bits soon hold a kind that is none.
fn edges(pen: &mut Pen, count: u64) {
    edge_path(pen);
    pen.count(count, SEGMENTS);
    random_bits(pen, count);
}

/// A handle count with as many bits after it at least.
fn handles(pen: &mut Pen, solid: bool, count: u64) {
    edge_path(pen);
    pen.bl(0);
    pen.count(count, 1_024);
    let from = pen.out.place();
    encode_hatch::tail(pen, solid, false);
    let used = pen.out.place() - from;
    random_bits(pen, count.saturating_sub(used as u64));
}

fn random_bits(pen: &mut Pen, count: u64) {
    let random = bits::random(&mut pen.rng, count as usize);
    pen.out.bits.extend(random);
}
