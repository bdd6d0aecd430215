//! The payloads of requests: bytes as they are written there, or a number of zeros.

/// Document 01's limit of a payload, in bytes.
pub const LIMIT: usize = 268_435_456;

/// A request's payload.
#[derive(Clone, Debug, PartialEq, Eq)]
pub enum Payload {
    /// Bytes that the request spells out.
    Bytes(Vec<u8>),
    /// That many zero bytes. They are lent by [`Zeros`], since a request may ask for very many.
    Zeros(u64),
}

impl Payload {
    /// Its length in bits.
    pub fn bits(&self) -> u128 {
        8 * match self {
            Payload::Bytes(bytes) => bytes.len() as u128,
            Payload::Zeros(count) => u128::from(*count),
        }
    }

    /// The payload that a request's field names: `-`, `zN`, or bytes in hexadecimal.
    pub fn parse(field: &[u8]) -> Option<Payload> {
        match field {
            b"-" => Some(Payload::Bytes(Vec::new())),
            [b'z', count @ ..] => crate::protocol::request::number(count).map(Payload::Zeros),
            _ => bytes(field).map(Payload::Bytes),
        }
    }
}

/// Two digits a byte; no digits are no payload, which is written `-`.
fn bytes(field: &[u8]) -> Option<Vec<u8>> {
    // Both walks go to the end whatever they find, so that the compiler takes many digits at once.
    let are_digits = field.iter().fold(true, |are, digit| are & digit.is_ascii_hexdigit());
    if field.is_empty() || field.len() % 2 != 0 || !are_digits {
        return None;
    }
    let mut bytes = vec![0; field.len() / 2];
    bytes.iter_mut().zip(field.chunks_exact(2)).for_each(|(byte, pair)| *byte = value(pair[0]) << 4 | value(pair[1]));
    Some(bytes)
}

/// The value of a hexadecimal digit. The letters' low four bits are 1 to 6, and alone have the bit 40 (hexadecimal).
fn value(digit: u8) -> u8 {
    (digit & 15) + 9 * (digit >> 6)
}

/// Zero bytes to lend, kept from one request to the next, so that a payload at the limit costs one allocation for all of them. The
/// allocation is asked for as zeros, and so no memory is touched before it is read.
#[derive(Default)]
pub struct Zeros(Vec<u8>);

impl Zeros {
    /// Makes room for the payload.
    ///
    /// Above the limit one length stands for all: document 01 refuses every such payload unread, and there may not be so much memory.
    pub fn reserve(&mut self, payload: &Payload) {
        let Payload::Zeros(count) = payload else { return };
        let count = lent(*count);
        if count > self.0.len() {
            // The old bytes are given back first, so that both are never there at once.
            let size = count.max(2 * self.0.len()).min(LIMIT + 1);
            self.0 = Vec::new();
            self.0 = vec![0; size];
        }
    }

    /// The payload's bytes. Room for it was made before.
    pub fn lend<'a>(&'a self, payload: &'a Payload) -> &'a [u8] {
        match payload {
            Payload::Bytes(bytes) => bytes,
            Payload::Zeros(count) => &self.0[..lent(*count)],
        }
    }
}

/// How many zeros are lent where so many are asked for.
fn lent(count: u64) -> usize {
    usize::try_from(count).map_or(LIMIT + 1, |count| count.min(LIMIT + 1))
}

#[cfg(test)]
mod tests {
    use super::*;

    #[test]
    fn a_payload_is_bytes_or_zeros() {
        assert_eq!(Payload::parse(b"3FfF"), Some(Payload::Bytes(vec![0x3f, 0xff])));
        assert_eq!(Payload::parse(b"-"), Some(Payload::Bytes(vec![])));
        assert_eq!(Payload::parse(b"z12"), Some(Payload::Zeros(12)));
        assert_eq!(Payload::parse(b"3Ff"), None);
        assert_eq!([Payload::Bytes(vec![0; 3]).bits(), Payload::Zeros(u64::MAX).bits()], [24, 8 * u128::from(u64::MAX)]);
        let (mut zeros, payload) = (Zeros::default(), Payload::Zeros(3));
        zeros.reserve(&payload);
        assert_eq!(zeros.lend(&payload), [0, 0, 0]);
    }

    #[test]
    fn hexadecimal_is_plain_pairs() {
        assert_eq!(Payload::parse(b"00aAF9"), Some(Payload::Bytes(vec![0, 0xaa, 0xf9])));
        for field in ["", "0", "0g", "+1", "0x", "--", "z", "z-1", "z+1", "z18446744073709551616", "Z1", "\u{e9}", "0 "] {
            assert_eq!(Payload::parse(field.as_bytes()), None, "{field}");
        }
        // Every byte as the second digit, alone and behind so many that they are taken many at once.
        for digit in 0..=u8::MAX {
            let value = char::from(digit).to_digit(16).map(|value| value as u8);
            for zeros in [0, 100] {
                let field = [vec![b'0'; 2 * zeros + 1], vec![digit]].concat();
                let bytes = value.map(|value| Payload::Bytes([vec![0; zeros], vec![value]].concat()));
                assert_eq!(Payload::parse(&field), bytes, "{digit}");
            }
        }
    }

    #[test]
    fn zeros_grow_and_stop_above_the_limit() {
        let mut zeros = Zeros::default();
        for count in [0, 5, 3, 100, 101, LIMIT as u64, u64::MAX] {
            let payload = Payload::Zeros(count);
            zeros.reserve(&payload);
            assert_eq!(zeros.lend(&payload).len(), (count.min(LIMIT as u64 + 1)) as usize);
        }
        assert_eq!(zeros.0.len(), LIMIT + 1);
    }
}
