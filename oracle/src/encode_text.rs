//! Texts: a BS length, then 8-bit or 16-bit units, with and without closing zeros.

use crate::encode::Pen;
use crate::laid::LaidText;

pub fn width(release: u64) -> usize {
    if release >= 4 { 16 } else { 8 }
}

/// A text of either width; now and then one that is no UTF-16. What its units are and whether it is padded is settled before it is written.
pub fn text(pen: &mut Pen, width: usize) -> LaidText {
    let mut units = if width == 8 { narrow(pen) } else { wide(pen) };
    let padded = padding(pen, &mut units);
    pen.size_bs(units.len() as u64 + u64::from(padded));
    let place = pen.out.place();
    for unit in units.iter().chain(padded.then_some(&0)) {
        pen.out.put_low_first(u64::from(*unit), width / 8);
    }
    pen.out.end_field();
    LaidText { width, place, units, padded }
}

fn length(pen: &mut Pen) -> usize {
    match pen.rng.below(12) {
        0..=2 => 0,
        3 | 4 => 1,
        5..=9 => 2 + pen.rng.index(5),
        10 => 2 * pen.rng.index(6) + 1,
        _ => pen.rng.pick(&[16, 17, 40]),
    }
}

/// Whether a zero is to stand behind the units; sometimes they get zeros of their own first. Units that end in a zero need one more behind them,
/// or their own would be dropped.
fn padding(pen: &mut Pen, units: &mut Vec<u16>) -> bool {
    let (padded, own) = pen.rng.pick(&[(false, 0), (false, 0), (false, 0), (true, 0), (true, 0), (true, 1), (true, 2)]);
    units.extend(std::iter::repeat_n(0, own));
    padded || units.last() == Some(&0)
}

fn narrow(pen: &mut Pen) -> Vec<u16> {
    let high = pen.rng.one_in(4);
    let mut units = Vec::new();
    for _ in 0..length(pen) {
        let letter = 0x20 + pen.rng.below(0x5f) as u16;
        let any = pen.rng.below(256) as u16;
        units.push(if high { any } else { letter });
    }
    units
}

fn wide(pen: &mut Pen) -> Vec<u16> {
    let mut units = Vec::new();
    for _ in 0..length(pen) {
        match pen.rng.below(8) {
            0 => units.extend([high(pen), low(pen)]),
            1 => units.push(pen.rng.pick(&[0xd7ff, 0xe000, 0xffff, 0xfffe, 0x0000, 0x0100])),
            2 => units.push(pen.rng.below(0xd800) as u16),
            _ => units.push(0x20 + pen.rng.below(0x5f) as u16),
        }
    }
    if pen.seldom_bad(9) {
        break_pairs(pen, &mut units);
    }
    units
}

fn high(pen: &mut Pen) -> u16 {
    let any = 0xd800 + pen.rng.below(0x400) as u16;
    pen.rng.pick(&[any, 0xd800, 0xdbff])
}

fn low(pen: &mut Pen) -> u16 {
    let any = 0xdc00 + pen.rng.below(0x400) as u16;
    pen.rng.pick(&[any, 0xdc00, 0xdfff])
}

/// A lone half, the halves swapped, or two of a kind, anywhere or at the end.
fn break_pairs(pen: &mut Pen, units: &mut Vec<u16>) {
    let (h, l) = (high(pen), low(pen));
    let broken: Vec<u16> = match pen.rng.below(5) {
        0 => vec![h],
        1 => vec![l],
        2 => vec![l, h],
        3 => vec![h, h, l],
        _ => vec![h, l, l],
    };
    let at = if pen.rng.bit() { units.len() } else { pen.rng.index(units.len() + 1) };
    units.splice(at..at, broken);
}
