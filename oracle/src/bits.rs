//! Bits in the order of a payload (top bit of each byte first), with notes on where codes lie.

use crate::rng::Rng;

/// A place that can be spoiled on purpose.
#[derive(Clone, Copy)]
pub enum Site {
    /// The tag of a BL or BD: 11 is refused.
    Tag(usize),
    /// A count in full code: where its value lies, that value's bytes, and its cap.
    Count { value_at: usize, bytes: usize, cap: u64 },
    /// An edge's kind, a byte.
    EdgeKind(usize),
    /// A handle's counter, four bits.
    Counter(usize),
    /// A size in full code that is no count (text, XDATA, graphics): where its value lies and that value's bytes.
    Size { value_at: usize, bytes: usize },
}

#[derive(Clone, Default)]
pub struct Bits {
    pub bits: Vec<bool>,
    pub sites: Vec<Site>,
    /// Where fields end.
    pub ends: Vec<usize>,
}

impl Bits {
    pub fn place(&self) -> usize {
        self.bits.len()
    }

    /// The low `count` bits of a value, highest first.
    pub fn put(&mut self, value: u64, count: usize) {
        for shift in (0..count).rev() {
            self.bits.push(value >> shift & 1 == 1);
        }
    }

    /// Whole bytes, low byte first.
    pub fn put_low_first(&mut self, value: u64, bytes: usize) {
        for index in 0..bytes {
            self.put(value >> (8 * index) & 0xff, 8);
        }
    }

    pub fn end_field(&mut self) {
        self.ends.push(self.bits.len());
    }
}

pub fn random(rng: &mut Rng, count: usize) -> Vec<bool> {
    (0..count).map(|_| rng.bit()).collect()
}

/// Overwrites bits from a place on; what lies past the end is left out.
pub fn overwrite(bits: &mut [bool], at: usize, value: u64, count: usize) {
    for offset in 0..count {
        if let Some(bit) = bits.get_mut(at + offset) {
            *bit = value >> (count - 1 - offset) & 1 == 1;
        }
    }
}

/// Overwrites whole bytes from a place on, low byte first.
pub fn overwrite_low_first(bits: &mut [bool], at: usize, value: u64, bytes: usize) {
    for index in 0..bytes {
        overwrite(bits, at + 8 * index, value >> (8 * index) & 0xff, 8);
    }
}

/// The bytes as a request writes them; the bits must fill whole bytes.
pub fn hex(bits: &[bool]) -> String {
    assert!(bits.len() % 8 == 0, "a payload of whole bytes");
    if bits.is_empty() {
        return "-".to_string();
    }
    let byte = |eight: &[bool]| eight.iter().fold(0u32, |value, bit| value * 2 + u32::from(*bit));
    bits.chunks(8).map(|eight| format!("{:02x}", byte(eight))).collect()
}
