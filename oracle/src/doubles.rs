//! Patterns of doubles; the ones that a careless copy would change are frequent.

use crate::rng::Rng;

pub const ONE: u64 = 0x3ff0_0000_0000_0000;

const SPECIAL: [u64; 20] = [
    0,
    0x8000_0000_0000_0000, // -0.0
    ONE,
    0xbff0_0000_0000_0000,
    0x7ff0_0000_0000_0000, // infinities
    0xfff0_0000_0000_0000,
    0x7ff8_0000_0000_0000, // quiet NaNs
    0xfff8_0000_0000_0000,
    0x7ff8_0000_0000_0001,
    0xffff_ffff_ffff_ffff,
    0x7ff0_0000_0000_0001, // signalling NaNs
    0xfff0_0000_0000_0001,
    0x7ff7_ffff_ffff_ffff,
    0x7ff4_0000_0000_0000,
    0x0000_0000_0000_0001, // subnormals
    0x8000_0000_0000_0001,
    0x000f_ffff_ffff_ffff,
    0x0010_0000_0000_0000, // the least normal, the greatest
    0x7fef_ffff_ffff_ffff,
    0x4059_0000_0000_0000,
];

pub fn pattern(rng: &mut Rng) -> u64 {
    match rng.below(10) {
        0..=3 => rng.pick(&SPECIAL),
        4 => nan(rng),
        5 => rng.next() & 0x800f_ffff_ffff_ffff, // zero or subnormal
        6 => rng.pick(&[0, ONE]),
        7 | 8 => coordinate(rng),
        _ => rng.next(),
    }
}

/// A NaN of either sign, quiet or signalling, with any payload.
fn nan(rng: &mut Rng) -> u64 {
    let payload = (rng.next() & 0x000f_ffff_ffff_ffff).max(1);
    (rng.next() & 0x8000_0000_0000_0000) | 0x7ff0_0000_0000_0000 | payload
}

/// What drawings hold: some thousands, with a fraction.
fn coordinate(rng: &mut Rng) -> u64 {
    let thousandths = rng.below(20_000_000) as f64 - 10_000_000.0;
    (thousandths / 1000.0).to_bits()
}

pub fn is_nan(pattern: u64) -> bool {
    f64::from_bits(pattern).is_nan()
}
