//! The object map of an R2000 drawing: pairs of a handle and a place in the file, in blocks one behind the other.

use std::ops::Range;

use super::modular::{self, Number};

/// What is left of an object map. Every step goes on by a byte at least, and none leaves the map's section.
#[derive(Debug)]
pub struct ObjectMap {
    /// What is left of the block that is read.
    block: Range<usize>,
    /// What is left of the section behind it.
    rest: Range<usize>,
    /// The pair that was read last in the block.
    last: Pair,
}

/// An object by the map. A place may be any number, also one outside of the file.
#[derive(Clone, Copy, Debug, Default, PartialEq, Eq)]
pub struct Pair {
    /// Its handle.
    pub handle: u64,
    /// Its place in the file, in bytes.
    pub place: i64,
}

impl ObjectMap {
    /// The map that lies there. The range lies in the file.
    pub fn new(section: Range<usize>) -> ObjectMap {
        ObjectMap { block: 0..0, rest: section, last: Pair::default() }
    }

    /// The next pair; `None` at the map's end. Behind a wrong one there is no next.
    pub fn next(&mut self, bytes: &[u8]) -> Result<Option<Pair>, String> {
        if self.block.is_empty() && !self.next_block(bytes)? {
            return Ok(None);
        }
        // Both numbers end where the block does, at the latest.
        let bytes = &bytes[..self.block.end];
        let handle = self.number(bytes, "handle", modular::char)?;
        let place = self.number(bytes, "place", modular::signed_char)?;
        let next = self.last.handle.checked_add(handle).zip(self.last.place.checked_add(place));
        let (handle, place) = next.ok_or_else(|| format!("its numbers before byte {} come to more than 64 bits hold", self.block.start))?;
        if handle == self.last.handle {
            return Err(format!("its handle before byte {} is not above the one before it, {handle:X}", self.block.start));
        }
        self.last = Pair { handle, place };
        Ok(Some(self.last))
    }

    /// Goes on to the next block; `false` at the map's end.
    fn next_block(&mut self, bytes: &[u8]) -> Result<bool, String> {
        let Range { start, end } = self.rest;
        let length = bytes[start..end].first_chunk().map(|bytes| usize::from(u16::from_be_bytes(*bytes)));
        match length {
            None => Err(format!("its section ends at byte {end} without a block of length 2, which ends a map")),
            Some(2) => Ok(false),
            // The length counts its own 2 bytes; 2 bytes of a check sum stand behind the block.
            Some(length) if length < 2 || length + 2 > end - start => {
                Err(format!("its block at byte {start} states a length of {length} bytes, and its section ends at byte {end}"))
            }
            Some(length) => {
                self.block = start + 2..start + length;
                self.rest.start = start + length + 2;
                self.last = Pair::default();
                Ok(true)
            }
        }
    }

    /// A number of a pair.
    fn number<T>(&mut self, bytes: &[u8], name: &str, read: fn(&[u8], usize) -> Number<T>) -> Result<T, String> {
        let at = self.block.start;
        let (value, place) = read(bytes, at).map_err(|wrong| format!("its {name} at byte {at} {wrong}"))?;
        self.block.start = place;
        Ok(value)
    }
}

#[cfg(test)]
mod tests {
    use super::*;

    fn pairs(bytes: &[u8]) -> Result<Vec<(u64, i64)>, String> {
        let mut map = ObjectMap::new(0..bytes.len());
        let mut pairs = Vec::new();
        while let Some(Pair { handle, place }) = map.next(bytes)? {
            pairs.push((handle, place));
        }
        Ok(pairs)
    }

    #[test]
    fn differences_begin_anew_in_each_block() {
        let bytes = [0, 7, 5, 0x88, 1, 2, 0x48, 9, 9, 0, 4, 1, 3, 9, 9, 0, 2];
        assert_eq!(pairs(&bytes), Ok(vec![(5, 136), (7, 128), (1, 3)]));
        assert_eq!(pairs(&[0, 2]), Ok(vec![]));
    }

    #[test]
    fn a_map_that_is_wrong_is_told_by_its_place() {
        let cases: [(&[u8], &str); 8] = [
            (&[], "its section ends at byte 0 without a block of length 2, which ends a map"),
            (&[0, 4, 1, 3, 0, 0, 0], "its section ends at byte 7 without a block of length 2, which ends a map"),
            (&[0, 1, 0, 2], "its block at byte 0 states a length of 1 bytes, and its section ends at byte 4"),
            (&[0, 4, 1, 3, 0], "its block at byte 0 states a length of 4 bytes, and its section ends at byte 5"),
            (&[0, 4, 1, 0x83, 0, 0, 0, 2], "its place at byte 3 ends before its last byte"),
            (&[0, 3, 1, 0, 0, 0, 2], "its place at byte 3 ends before its last byte"),
            (&[0, 6, 1, 3, 0, 3, 0, 0, 0, 2], "its handle before byte 6 is not above the one before it, 1"),
            (&[0, 4, 0, 3, 0, 0, 0, 2], "its handle before byte 4 is not above the one before it, 0"),
        ];
        for (bytes, wrong) in cases {
            assert_eq!(pairs(bytes), Err(wrong.to_string()), "{bytes:?}");
        }
        let greatest: [u8; 9] = [0xff, 0xff, 0xff, 0xff, 0xff, 0xff, 0xff, 0xff, 0x7f];
        let three = [&greatest[..], &[0], &greatest, &[0], &greatest, &[0]].concat();
        let bytes = [&[0, 32][..], &three, &[0, 0, 0, 2]].concat();
        assert_eq!(pairs(&bytes), Err("its numbers before byte 32 come to more than 64 bits hold".to_string()));
    }
}
