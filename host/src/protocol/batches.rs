//! Lines of an input in batches: as many as are there at once, so that none waits for those that come later.

use std::io::{self, Read};

use crate::jobs::Batch;

/// So much is read at once.
const AT_ONCE: usize = 1 << 16;

/// Some whole lines, each with its line end, but for the input's last one.
pub struct Lines(pub Vec<u8>);

impl Batch for io::Result<Lines> {
    fn size(&self) -> usize {
        self.as_ref().map_or(0, |lines| lines.0.len())
    }
}

/// The batches of an input. Nothing comes after a failure.
pub struct Batches<Input> {
    input: Option<Input>,
    /// The start of a line whose end is not read yet.
    rest: Vec<u8>,
}

impl<Input: Read> Batches<Input> {
    /// All lines of an input.
    pub fn new(input: Input) -> Batches<Input> {
        Batches { input: Some(input), rest: Vec::new() }
    }

    /// Reads on, and gives the lines that are whole then; `None` at the input's end.
    fn read(&mut self, input: &mut Input) -> io::Result<Option<Lines>> {
        loop {
            let before = self.rest.len();
            if read_some(input, &mut self.rest)? == 0 {
                return Ok(None);
            }
            if let Some(at) = self.rest[before..].iter().rposition(|byte| *byte == b'\n') {
                let rest = self.rest.split_off(before + at + 1);
                return Ok(Some(Lines(std::mem::replace(&mut self.rest, rest))));
            }
        }
    }
}

impl<Input: Read> Iterator for Batches<Input> {
    type Item = io::Result<Lines>;

    fn next(&mut self) -> Option<io::Result<Lines>> {
        let mut input = self.input.take()?;
        match self.read(&mut input) {
            Ok(Some(lines)) => {
                self.input = Some(input);
                Some(Ok(lines))
            }
            Ok(None) => Some(std::mem::take(&mut self.rest)).filter(|last| !last.is_empty()).map(|last| Ok(Lines(last))),
            Err(error) => Some(Err(error)),
        }
    }
}

/// Adds what one reading gives, and says how many bytes that are; 0 at the end.
fn read_some(input: &mut impl Read, bytes: &mut Vec<u8>) -> io::Result<usize> {
    let before = bytes.len();
    bytes.resize(before + AT_ONCE, 0);
    let read = loop {
        match input.read(&mut bytes[before..]) {
            Err(error) if error.kind() == io::ErrorKind::Interrupted => {}
            read => break read,
        }
    };
    bytes.truncate(before + read.as_ref().map_or(0, |count| *count));
    read
}

#[cfg(test)]
mod tests {
    use super::*;

    /// Gives so many bytes at a reading.
    struct Slowly(&'static [u8], usize);

    impl Read for Slowly {
        fn read(&mut self, into: &mut [u8]) -> io::Result<usize> {
            let count = self.1.min(into.len());
            self.0.by_ref().take(count as u64).read(into)
        }
    }

    fn batches(text: &'static [u8], at_once: usize) -> Vec<Vec<u8>> {
        Batches::new(Slowly(text, at_once)).map(|lines| lines.expect("lines").0).collect()
    }

    #[test]
    fn lines_come_whole_and_as_they_are_there() {
        assert_eq!(batches(b"one\ntwo\nthree", 100), [&b"one\ntwo\n"[..], b"three"]);
        assert_eq!(batches(b"one\ntwo\nthree\n", 5), [&b"one\n"[..], b"two\n", b"three\n"]);
        assert_eq!(batches(b"\n\nlast", 1), [&b"\n"[..], b"\n", b"last"]);
        assert!(batches(b"", 5).is_empty());
        for at_once in 1..40 {
            assert_eq!(batches(b"a\nbc\n\ndefg\nhijklmnop\nq", at_once).concat(), b"a\nbc\n\ndefg\nhijklmnop\nq", "{at_once}");
        }
    }

    #[test]
    fn a_failure_is_the_last() {
        struct Broken;
        impl Read for Broken {
            fn read(&mut self, _: &mut [u8]) -> io::Result<usize> {
                Err(io::Error::other("broken"))
            }
        }
        let mut batches = Batches::new(b"one\ntw".chain(Broken));
        assert_eq!(batches.next().unwrap().unwrap().0, b"one\n");
        assert!(batches.next().unwrap().is_err() && batches.next().is_none());
    }
}
