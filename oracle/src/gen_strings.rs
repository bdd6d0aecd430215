//! String payloads with a start and an end bit.

use crate::bits::{self, Bits};
use crate::rng::Rng;
use crate::spoil::{self, Made};

/// The fields STRSTART STREND STR for texts that were laid out.
pub fn fields(rng: &mut Rng, body: &Bits) -> String {
    if rng.one_in(30) {
        return format!("{} {} -", rng.pick(&[0, 0, 1, 8]), rng.pick(&[0, 1, 16, u64::MAX]));
    }
    let made = if rng.one_in(4) { spoil::any(rng, body) } else { spoil::whole(rng, body) };
    let end = end(rng, &made, body);
    format!("{} {end} {}", made.start, bits::hex(&made.bits))
}

/// Mostly where the texts end; else before, at and after the ends of their parts, around the start, and past the payload.
fn end(rng: &mut Rng, made: &Made, body: &Bits) -> u64 {
    let lead = made.start;
    let at = |place: usize| lead.saturating_add(place as u64);
    let all = made.bits.len() as u64;
    let near = if body.ends.is_empty() { lead } else { at(rng.pick(&body.ends)) };
    match rng.below(10) {
        0..=4 => at(body.bits.len()),
        5 => rng.pick(&[near, near.saturating_add(1), near.saturating_sub(1), near.saturating_sub(16)]),
        6 => rng.pick(&[all, all.saturating_sub(1), all + 1, all + 8, all + 1000]),
        7 => rng.pick(&[lead, lead.saturating_add(1), lead.saturating_sub(1), 0]),
        8 => rng.pick(&[u64::MAX, u64::MAX / 2, 1 << 32]),
        _ => rng.below(all + 20),
    }
}
