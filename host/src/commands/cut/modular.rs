//! Numbers that take as many bytes as they need: modular chars in the object map, a modular short in front of each object.

/// A number and the place behind it, or what is wrong with it.
pub type Number<T> = Result<(T, usize), &'static str>;

/// The most bytes of a modular char: 63 bits, so that no number leaves an i64.
const MOST_BYTES: usize = 9;

/// The most 2-byte parts of a modular short: 45 bits, far above any file's length.
const MOST_PARTS: usize = 3;

const CUT_SHORT: &str = "ends before its last byte";
const TOO_LONG: &str = "is longer than any that a drawing needs";

/// An unsigned modular char: 7 bits of each byte, low ones first, the top bit set where another byte follows.
pub fn char(bytes: &[u8], place: usize) -> Number<u64> {
    let (low, last, shift, place) = parts(bytes, place)?;
    Ok((low | u64::from(last) << shift, place))
}

/// A signed one: of the last byte 6 bits count, and bit 40 (hexadecimal) means minus.
pub fn signed_char(bytes: &[u8], place: usize) -> Number<i64> {
    let (low, last, shift, place) = parts(bytes, place)?;
    let value = (low | u64::from(last & 0x3f) << shift) as i64;
    Ok((if last & 0x40 != 0 { -value } else { value }, place))
}

/// A modular char's bits before its last byte, that byte, where its bits go, and the place behind it.
fn parts(bytes: &[u8], place: usize) -> Result<(u64, u8, usize, usize), &'static str> {
    let mut low = 0;
    for (at, byte) in bytes.iter().skip(place).take(MOST_BYTES).enumerate() {
        if byte & 0x80 == 0 {
            return Ok((low, *byte, 7 * at, place + at + 1));
        }
        low |= u64::from(byte & 0x7f) << (7 * at);
    }
    Err(if bytes.len() - place.min(bytes.len()) < MOST_BYTES { CUT_SHORT } else { TOO_LONG })
}

/// A modular short: 15 bits of each 2-byte number, low byte and low bits first, the top bit set where another follows.
pub fn short(bytes: &[u8], place: usize) -> Number<u64> {
    let mut value = 0;
    for at in 0..MOST_PARTS {
        let part = bytes.get(place + 2 * at..).and_then(<[u8]>::first_chunk).ok_or(CUT_SHORT)?;
        let part = u16::from_le_bytes(*part);
        value |= u64::from(part & 0x7fff) << (15 * at);
        if part & 0x8000 == 0 {
            return Ok((value, place + 2 * (at + 1)));
        }
    }
    Err(TOO_LONG)
}

#[cfg(test)]
mod tests {
    use super::*;

    #[test]
    fn low_bits_come_first() {
        assert_eq!(char(&[0xff, 0x82, 0x24, 0x4b], 1), Ok((0x24 << 7 | 2, 3)));
        assert_eq!(char(&[0x7f], 0), Ok((127, 1)));
        assert_eq!(signed_char(&[0x85, 0x4b], 0), Ok((-(0x0b << 7 | 5), 2)));
        assert_eq!(signed_char(&[0x3f], 0), Ok((63, 1)));
        assert_eq!(signed_char(&[0x40], 0), Ok((0, 1)));
        assert_eq!(short(&[0x31, 0xf4, 0x8d, 0x00], 0), Ok((0x8d << 15 | 0x7431, 4)));
        assert_eq!(short(&[0, 0x2a, 0x01], 1), Ok((0x012a, 3)));
    }

    #[test]
    fn a_number_without_an_end_is_no_number() {
        assert_eq!(char(&[0xff; 8], 0), Err(CUT_SHORT));
        assert_eq!(char(&[], 3), Err(CUT_SHORT));
        for bytes in [&[0xff; 9][..], &[0xff; 1000]] {
            assert_eq!((char(bytes, 0), signed_char(bytes, 0)), (Err(TOO_LONG), Err(TOO_LONG)));
            assert_eq!(short(bytes, 0), Err(TOO_LONG));
        }
        assert_eq!(short(&[0xff; 5], 0), Err(CUT_SHORT));
        assert_eq!(short(&[1], 0), Err(CUT_SHORT));
        assert_eq!(short(&[], 3), Err(CUT_SHORT));
    }

    #[test]
    fn the_longest_are_read() {
        let longest = [&[0xff; 8][..], &[0x7f]].concat();
        assert_eq!(char(&longest, 0), Ok(((1 << 63) - 1, 9)));
        assert_eq!(signed_char(&longest, 0), Ok((-((1 << 62) - 1), 9)));
    }
}
