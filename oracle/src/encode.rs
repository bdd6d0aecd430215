//! An encoder of its own, from document 01's code table: each value in any allowed code, shortest or not.

use crate::bits::{Bits, Site};
use crate::doubles;
use crate::laid::Laid;
use crate::rng::Rng;

pub struct Pen {
    pub rng: Rng,
    pub out: Bits,
    /// Counts and sizes in the code that holds every value, so that they can be raised afterwards.
    pub full_counts: bool,
    /// Nothing that is to be refused.
    pub clean: bool,
    /// What was written, as an answer has it.
    pub laid: Laid,
}

impl Pen {
    pub fn new(rng: &mut Rng) -> Pen {
        let full_counts = rng.one_in(3);
        Pen { rng: rng.split(), out: Bits::default(), full_counts, clean: false, laid: Laid::default() }
    }

    pub fn clean(rng: &mut Rng) -> Pen {
        Pen { clean: true, ..Pen::new(rng) }
    }

    /// True once in that many, never where only what is accepted is written.
    pub fn seldom_bad(&mut self, times: u64) -> bool {
        self.rng.one_in(times) && !self.clean
    }

    /// Raw bits: B, BB, 3B.
    pub fn raw(&mut self, value: u64, bits: usize) {
        self.out.put(value, bits);
        self.out.end_field();
    }

    pub fn b(&mut self, value: bool) {
        self.raw(u64::from(value), 1);
    }

    /// Raw bytes: RC, RS, RL, RD.
    pub fn bytes(&mut self, value: u64, bytes: usize) {
        self.out.put_low_first(value, bytes);
        self.out.end_field();
    }

    pub fn rd(&mut self) -> u64 {
        let value = doubles::pattern(&mut self.rng);
        self.bytes(value, 8);
        value
    }

    fn tagged(&mut self, tag: u64, value: u64, bytes: usize) {
        self.out.put(tag, 2);
        self.out.put_low_first(value, bytes);
        self.out.end_field();
    }

    /// BS: 00 two bytes, 01 one, 10 is 0, 11 is 256.
    pub fn bs(&mut self, value: u16) {
        let mut codes = vec![(0, 2)];
        if value < 256 {
            codes.push((1, 1));
        }
        if value == 0 {
            codes.push((2, 0));
        }
        if value == 256 {
            codes.push((3, 0));
        }
        let (tag, bytes) = self.rng.pick(&codes);
        self.tagged(tag, u64::from(value), bytes);
    }

    /// BL: 00 four bytes, 01 one, 10 is 0.
    pub fn bl(&mut self, value: u32) {
        let mut codes = vec![(0, 4)];
        if value < 256 {
            codes.push((1, 1));
        }
        if value == 0 {
            codes.push((2, 0));
        }
        let (tag, bytes) = self.rng.pick(&codes);
        self.out.sites.push(Site::Tag(self.out.place()));
        self.tagged(tag, u64::from(value), bytes);
    }

    /// BD: 00 eight bytes, 01 is 1.0, 10 is +0.0.
    pub fn bd_of(&mut self, value: u64) {
        let mut codes = vec![(0, 8)];
        if value == doubles::ONE {
            codes.push((1, 0));
        }
        if value == 0 {
            codes.push((2, 0));
        }
        let (tag, bytes) = self.rng.pick(&codes);
        self.out.sites.push(Site::Tag(self.out.place()));
        self.tagged(tag, value, bytes);
    }

    pub fn bd(&mut self) -> u64 {
        let value = if self.rng.bit() { self.rng.pick(&[0, doubles::ONE]) } else { doubles::pattern(&mut self.rng) };
        self.bd_of(value);
        value
    }

    /// DD: 00 the default, 01 its low four bytes anew, 10 its low six (bytes 4 and 5 first), 11 all eight.
    pub fn dd(&mut self, value: u64, default: u64) {
        let mut tags = vec![3];
        if value == default {
            tags.push(0);
        }
        if value >> 32 == default >> 32 {
            tags.push(1);
        }
        if value >> 48 == default >> 48 {
            tags.push(2);
        }
        let tag = self.rng.pick(&tags);
        self.out.put(tag, 2);
        match tag {
            0 => (),
            1 => self.out.put_low_first(value, 4),
            2 => {
                self.out.put_low_first(value >> 32, 2);
                self.out.put_low_first(value, 4);
            }
            _ => self.out.put_low_first(value, 8),
        }
        self.out.end_field();
    }

    /// BLL: three bits of length, then that many bytes; longer than needed is allowed.
    pub fn bll(&mut self, value: u64) {
        let least = (64 - value.leading_zeros() as usize).div_ceil(8);
        let length = least + self.rng.index(8 - least);
        self.out.put(length as u64, 3);
        self.out.put_low_first(value, length);
        self.out.end_field();
    }

    /// Handle: four bits of code, four of counter, the value's bytes high first.
    pub fn handle(&mut self) {
        let bytes = self.rng.pick(&[0, 0, 1, 1, 2, 3, 8]);
        let value = if bytes == 0 { 0 } else { self.rng.next() >> (64 - 8 * bytes) };
        let code = self.rng.below(16);
        let counter = bytes + if self.rng.one_in(4) { self.rng.below(9 - bytes) } else { 0 };
        self.out.put(code, 4);
        self.out.sites.push(Site::Counter(self.out.place()));
        self.out.put(counter, 4);
        for index in (0..counter).rev() {
            self.out.put(value >> (8 * index) & 0xff, 8);
        }
        self.out.end_field();
    }

    /// A count as BL.
    pub fn count(&mut self, value: u64, cap: u64) {
        if self.full_counts {
            self.out.sites.push(Site::Count { value_at: self.out.place() + 2, bytes: 4, cap });
            self.tagged(0, value, 4);
        } else {
            self.bl(value as u32);
        }
    }

    /// A count as BS.
    pub fn count_bs(&mut self, value: u64, cap: u64) {
        if self.full_counts {
            self.out.sites.push(Site::Count { value_at: self.out.place() + 2, bytes: 2, cap });
            self.tagged(0, value, 2);
        } else {
            self.bs(value as u16);
        }
    }

    /// A size as BS: text units, XDATA bytes.
    pub fn size_bs(&mut self, value: u64) {
        if self.full_counts {
            self.out.sites.push(Site::Size { value_at: self.out.place() + 2, bytes: 2 });
            self.tagged(0, value, 2);
        } else {
            self.bs(value as u16);
        }
    }
}
