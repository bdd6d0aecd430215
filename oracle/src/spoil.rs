//! From the bits of a layout to a payload with a start bit: random bits before and after, as laid out or spoiled.

use crate::bits::{self, Bits, Site};
use crate::rng::Rng;

pub struct Made {
    pub start: u64,
    pub bits: Vec<bool>,
}

/// The layout between random bits; half of the time something is wrong with it.
pub fn any(rng: &mut Rng, body: &Bits) -> Made {
    match rng.below(20) {
        0..=8 => whole(rng, body),
        9 | 10 => flipped(rng, body),
        11..=13 => cut_at_a_field(rng, body),
        14 => at_site(rng, body, |site| matches!(site, Site::Tag(_))),
        15 | 16 => at_site(rng, body, |site| matches!(site, Site::Count { .. })),
        17 => at_site(rng, body, |site| !matches!(site, Site::Tag(_) | Site::Count { .. })),
        18 => other_start(rng, body),
        _ => cut_anywhere(rng, body),
    }
}

/// As laid out, from a start bit of 0 to 20; the bits after it are sometimes many, so that handle counts fit.
pub fn whole(rng: &mut Rng, body: &Bits) -> Made {
    let lead = rng.index(21);
    let more = if rng.one_in(8) { rng.index(160) } else { rng.index(4) };
    let mut all = bits::random(rng, lead);
    all.extend(&body.bits);
    let to_a_byte = all.len().next_multiple_of(8) - all.len();
    all.extend(bits::random(rng, to_a_byte + 8 * more));
    Made { start: lead as u64, bits: all }
}

fn flipped(rng: &mut Rng, body: &Bits) -> Made {
    let mut made = whole(rng, body);
    for _ in 0..1 + rng.below(4) {
        if !made.bits.is_empty() {
            let at = rng.index(made.bits.len());
            made.bits[at] = !made.bits[at];
        }
    }
    made
}

/// The payload ends at that bit of the layout; the start bit makes up for whole bytes.
pub fn cut(rng: &mut Rng, body: &Bits, at: usize) -> Made {
    let lead = at.next_multiple_of(8) - at + 8 * rng.index(2);
    let mut all = bits::random(rng, lead);
    all.extend(&body.bits[..at]);
    Made { start: lead as u64, bits: all }
}

/// Cut at a field's end or a few bits short of it.
fn cut_at_a_field(rng: &mut Rng, body: &Bits) -> Made {
    let end = if body.ends.is_empty() { 0 } else { rng.pick(&body.ends) };
    let some = rng.index(64);
    let short = rng.pick(&[0, 1, 1, 2, 7, 8, 9, some]);
    cut(rng, body, end.saturating_sub(short))
}

fn cut_anywhere(rng: &mut Rng, body: &Bits) -> Made {
    let at = rng.index(body.bits.len() + 1);
    cut(rng, body, at)
}

/// Starts at the payload's end, around it and far past it, and beside the layout's start.
fn other_start(rng: &mut Rng, body: &Bits) -> Made {
    let mut made = whole(rng, body);
    let length = made.bits.len() as u64;
    let beside = [made.start + 1, made.start.saturating_sub(1)];
    let ends = [length, length + 1, length.saturating_sub(1), length + 8, u64::MAX, 1 << 32];
    made.start = if rng.one_in(3) { rng.pick(&beside) } else { rng.pick(&ends) };
    made
}

/// One value of the layout overwritten with one that is refused, or just not.
fn at_site(rng: &mut Rng, body: &Bits, wanted: fn(&Site) -> bool) -> Made {
    let mut made = whole(rng, body);
    let sites: Vec<Site> = body.sites.iter().copied().filter(wanted).collect();
    if sites.is_empty() {
        return made;
    }
    let site = rng.pick(&sites);
    overwrite(rng, &mut made, site);
    made
}

fn overwrite(rng: &mut Rng, made: &mut Made, site: Site) {
    let lead = made.start as usize;
    let all = &mut made.bits;
    match site {
        Site::Tag(at) => bits::overwrite(all, lead + at, 3, 2),
        Site::EdgeKind(at) => bits::overwrite(all, lead + at, rng.pick(&[0, 5, 6, 128, 255]), 8),
        Site::Counter(at) => bits::overwrite(all, lead + at, rng.pick(&[8, 9, 10, 15]), 4),
        Site::Count { value_at, bytes, cap } => {
            let at = lead + value_at;
            let left = (all.len() - at - 8 * bytes) as u64;
            let value = rng.pick(&[cap, cap + 1, left, left + 1, left.saturating_sub(1), 1, u64::MAX]);
            bits::overwrite_low_first(all, at, value, bytes);
        }
        Site::Size { value_at, bytes } => {
            let at = lead + value_at;
            let left = (all.len() - at - 8 * bytes) as u64;
            let value = rng.pick(&[left / 8, left / 8 + 1, left / 16, left / 16 + 1, 1, u64::MAX]);
            bits::overwrite_low_first(all, at, value, bytes);
        }
    }
}
