//! Boundary paths of a hatch, from document 01's field order.

use crate::bits::Site;
use crate::encode::Pen;

pub const SEGMENTS: u64 = 100_000;
pub const HANDLES: u64 = 1_024;

/// A path; answers whether flag value 4 is set, which brings a pixel size.
pub fn path(pen: &mut Pen, release: u64) -> bool {
    let any = pen.rng.next() as u32;
    let flags = pen.rng.pick(&[0, 1, 2, 3, 4, 5, 6, 7, 16, 18, 20, 0xffff_fffd, 0x8000_0002, any]);
    pen.bl(flags);
    pen.laid.words.push(flags);
    if flags & 2 != 0 { polyline(pen) } else { edges(pen, release) }
    handle_count(pen);
    flags & 4 != 0
}

/// The handles are elsewhere; their count must not pass the bits after it.
pub fn handle_count(pen: &mut Pen) {
    let many = pen.rng.pick(&[8, 40, 100, 1_023, 1_024, 1_025]);
    let few = pen.rng.pick(&[0, 0, 0, 1, 2, 5]);
    let count = if pen.seldom_bad(20) { many } else { few };
    pen.count(count, HANDLES);
    pen.laid.words.push(count as u32);
}

/// B bulge, B closed, BL count, then RD x, y and, if bulge, BD.
fn polyline(pen: &mut Pen) {
    let (bulge, closed) = (pen.rng.bit(), pen.rng.bit());
    pen.b(bulge);
    pen.b(closed);
    let count = pen.rng.pick(&[0, 1, 2, 3, 4, 6]);
    pen.count(count, SEGMENTS);
    pen.laid.words.extend([u32::from(bulge), u32::from(closed), count as u32]);
    for _ in 0..count {
        raw_and_coded(pen, 2, usize::from(bulge));
    }
}

fn edges(pen: &mut Pen, release: u64) {
    let count = pen.rng.pick(&[0, 1, 1, 2, 3]);
    pen.count(count, SEGMENTS);
    pen.laid.words.push(count as u32);
    for _ in 0..count {
        let bad = pen.rng.pick(&[0, 5, 6, 128, 255]);
        let good = 1 + pen.rng.below(4);
        let kind = if pen.seldom_bad(60) { bad } else { good };
        edge(pen, kind, release);
    }
}

fn edge(pen: &mut Pen, kind: u64, release: u64) {
    pen.out.sites.push(Site::EdgeKind(pen.out.place()));
    pen.bytes(kind, 1);
    pen.laid.words.push(kind as u32);
    match kind {
        2 => raw_and_coded(pen, 2, 3),
        3 => raw_and_coded(pen, 4, 3),
        4 => spline(pen, release),
        _ => raw_and_coded(pen, 4, 0),
    }
    if kind == 2 || kind == 3 {
        let ccw = pen.rng.bit();
        pen.b(ccw);
        pen.laid.words.push(u32::from(ccw));
    }
}

/// RD, then BD, each an entry of the numbers.
fn raw_and_coded(pen: &mut Pen, raw: usize, coded: usize) {
    for _ in 0..raw {
        let value = pen.rd();
        pen.laid.numbers.push(value);
    }
    for _ in 0..coded {
        let value = pen.bd();
        pen.laid.numbers.push(value);
    }
}

/// BL degree, B rational, B periodic, BL knots, BL controls, knots BD, controls (2 RD, BD if rational); from 5, BL fits
/// and, if nonzero, fits (2 RD) and 4 RD tangents.
fn spline(pen: &mut Pen, release: u64) {
    let any = pen.rng.next() as u32;
    let degree = pen.rng.pick(&[0, 1, 2, 3, 3, 255, 256, any]);
    pen.bl(degree);
    let (rational, periodic) = (pen.rng.bit(), pen.rng.bit());
    pen.b(rational);
    pen.b(periodic);
    let knots = pen.rng.pick(&[0, 1, 4, 6, 8]);
    let controls = pen.rng.pick(&[0, 0, 1, 2, 4]);
    pen.count(knots, SEGMENTS);
    pen.count(controls, SEGMENTS);
    pen.laid.words.extend([degree, u32::from(rational), u32::from(periodic), knots as u32, controls as u32]);
    let fits = if release >= 5 { pen.rng.pick(&[0, 0, 0, 1, 2, 3]) } else { 0 };
    pen.laid.words.push(fits as u32);
    raw_and_coded(pen, 0, knots as usize);
    for _ in 0..controls {
        raw_and_coded(pen, 2, usize::from(rational));
    }
    if release >= 5 {
        pen.count(fits, SEGMENTS);
        let points = if fits == 0 { 0 } else { fits as usize + 2 };
        raw_and_coded(pen, 2 * points, 0);
    }
}
