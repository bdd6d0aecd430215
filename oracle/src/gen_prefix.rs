//! Requests for entity prefixes.

use crate::bits;
use crate::encode::Pen;
use crate::encode_prefix;
use crate::request::LIMIT;
use crate::rng::Rng;
use crate::spoil;

/// A release that is laid out and the one that is asked for: mostly the same, sometimes another or an unknown one.
pub fn releases(rng: &mut Rng) -> (u64, u64) {
    let laid = 1 + rng.below(7);
    // Some are a known release in their low 8, 16 or 32 bits.
    let unknown = rng.pick(&[0, 8, 9, 255, 256, 258, 65_537, 4_294_967_295, 4_294_967_298, u64::MAX]);
    let asked = match rng.below(40) {
        0 | 1 => unknown,
        2..=4 => 1 + rng.below(7),
        _ => laid,
    };
    (laid, asked)
}

pub fn any(rng: &mut Rng) -> String {
    let (laid, asked) = releases(rng);
    if rng.one_in(100) {
        let many = rng.pick(&[LIMIT, LIMIT + 1]);
        let count = if rng.one_in(12) { many } else { rng.pick(&[0, 1, 2, 9, 40]) };
        return format!("prefix {asked} {} z{count}", rng.below(12));
    }
    let mut pen = Pen::new(rng);
    encode_prefix::prefix(&mut pen, laid);
    let made = if rng.one_in(3) { spoil::whole(rng, &pen.out) } else { spoil::any(rng, &pen.out) };
    format!("prefix {asked} {} {}", made.start, bits::hex(&made.bits))
}
