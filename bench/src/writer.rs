//! Bits into bytes, the top bit of each byte first; fast enough for bodies of many megabytes.

#[derive(Default)]
pub struct Writer {
    pub bytes: Vec<u8>,
    /// How many bits of the last byte are used, 8 where it is full or there is none.
    used: usize,
}

impl Writer {
    pub fn new() -> Writer {
        Writer { bytes: Vec::new(), used: 8 }
    }

    /// The low `count` bits of a value, highest first.
    pub fn put(&mut self, value: u64, count: usize) {
        let mut left = count;
        while left > 0 {
            if self.used == 8 {
                self.bytes.push(0);
                self.used = 0;
            }
            let taken = left.min(8 - self.used);
            let part = (value >> (left - taken)) as u8 & (0xff >> (8 - taken));
            if let Some(last) = self.bytes.last_mut() {
                *last |= part << (8 - self.used - taken);
            }
            self.used += taken;
            left -= taken;
        }
    }

    /// Whole bytes, low byte first.
    pub fn put_low_first(&mut self, value: u64, bytes: usize) {
        for index in 0..bytes {
            self.put(value >> (8 * index) & 0xff, 8);
        }
    }
}
