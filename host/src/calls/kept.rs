//! The lists that a body is read into, kept from one call to the next. A call that is lent lists measures the body by itself, so measuring it before costs a
//! walk that is needed only where the lists of the last call are too short.

use std::cell::Cell;
use std::thread::LocalKey;

use super::hatch_record::Hatch;
use super::hatches::HatchBody;
use super::refusal::{Reason, Refusal};

/// Lists above so many entries are given back after the call, so that one large hatch does not hold its memory for ever.
const MOST_KEPT: usize = 1 << 16;

/// The fewest entries of a list that is made.
const FEWEST: usize = 256;

/// Two lists, as long as the longest readings into them so far.
pub(crate) struct Lists<Double> {
    words: Vec<u32>,
    numbers: Vec<Double>,
}

impl<Double> Default for Lists<Double> {
    fn default() -> Lists<Double> {
        Lists { words: Vec::new(), numbers: Vec::new() }
    }
}

thread_local! {
    static DOUBLES: Cell<Lists<f64>> = Cell::default();
    static BITS: Cell<Lists<u64>> = Cell::default();
}

/// What the numbers of a reading are: doubles, or each as its 64 bits.
pub(crate) trait Number: Copy + Default + 'static {
    /// The lists that this thread keeps.
    fn kept() -> &'static LocalKey<Cell<Lists<Self>>>;

    /// The call that reads into such lists.
    fn decode_into(body: &HatchBody, numbers: &mut [Self], words: &mut [u32]) -> Result<Hatch<Self>, Refusal>;
}

impl Number for f64 {
    fn kept() -> &'static LocalKey<Cell<Lists<f64>>> {
        &DOUBLES
    }

    fn decode_into(body: &HatchBody, numbers: &mut [f64], words: &mut [u32]) -> Result<Hatch, Refusal> {
        body.decode_into(numbers, words)
    }
}

impl Number for u64 {
    fn kept() -> &'static LocalKey<Cell<Lists<u64>>> {
        &BITS
    }

    fn decode_into(body: &HatchBody, numbers: &mut [u64], words: &mut [u32]) -> Result<Hatch<u64>, Refusal> {
        body.decode_bits_into(numbers, words)
    }
}

/// Reads the body into the thread's lists, and gives what is made of its record, its words and its numbers.
pub(crate) fn read<Double: Number, T>(body: &HatchBody, make: impl FnOnce(Hatch<Double>, &[u32], &[Double]) -> T) -> Result<T, Refusal> {
    // A thread that is ending has no lists any more; then they are new ones.
    let mut lists = Double::kept().try_with(Cell::take).unwrap_or_default();
    let read = lists.read(body);
    let made = read.map(|hatch| {
        let (words, numbers) = (hatch.words_used, hatch.numbers_used);
        make(hatch, &lists.words[..words], &lists.numbers[..numbers])
    });
    if lists.words.len().max(lists.numbers.len()) <= MOST_KEPT {
        let _ = Double::kept().try_with(|kept| kept.set(lists));
    }
    made
}

impl<Double: Number> Lists<Double> {
    fn read(&mut self, body: &HatchBody) -> Result<Hatch<Double>, Refusal> {
        if !self.words.is_empty() {
            match Double::decode_into(body, &mut self.numbers, &mut self.words) {
                Err(Refusal { reason: Reason::ListTooShort, .. }) => {}
                read => return read,
            }
        }
        let needed = body.measure()?;
        grow(&mut self.words, needed.words);
        grow(&mut self.numbers, needed.numbers);
        Double::decode_into(body, &mut self.numbers, &mut self.words)
    }
}

fn grow<Entry: Copy + Default>(list: &mut Vec<Entry>, needed: usize) {
    if list.len() < needed || list.is_empty() {
        // The old entries are given back first: nothing of them is needed.
        *list = Vec::new();
        *list = vec![Entry::default(); needed.max(FEWEST)];
    }
}

#[cfg(test)]
mod tests {
    use super::*;
    use crate::Release;

    /// A solid hatch of R2000 without paths, and so many seed points, 0 to 255, at the origin.
    fn seeds(count: usize) -> Vec<u8> {
        let mut bytes = vec![0xa9, 0xaa, 0x90 | (count >> 4) as u8, (count << 4) as u8];
        bytes.resize(4 + 16 * count, 0);
        bytes
    }

    fn kept<Double: Number>() -> (usize, usize) {
        Double::kept().with(|kept| {
            let lists = kept.take();
            let lengths = (lists.words.len(), lists.numbers.len());
            kept.set(lists);
            lengths
        })
    }

    /// Short and long bodies in turn give what new lists of their lengths give, by both entries.
    #[test]
    fn what_the_lists_held_before_does_not_matter() {
        for count in [0, 200, 1, 255, 3, 0, 254] {
            let payload = seeds(count);
            let body = HatchBody::new(&payload, 0, Release::R2000);
            let lengths = body.measure().unwrap();
            let (mut numbers, mut bits, mut words) = (vec![7.0; lengths.numbers], vec![7; lengths.numbers], vec![7; lengths.words]);
            let hatch = body.decode_into(&mut numbers, &mut words).unwrap();
            let read = body.decode().unwrap();
            assert_eq!((read.hatch, read.words, read.numbers), (hatch, words.clone(), numbers));
            let hatch = body.decode_bits_into(&mut bits, &mut words).unwrap();
            let read = body.decode_bits().unwrap();
            assert_eq!((read.hatch, read.words, read.numbers), (hatch, words, bits));
            assert_eq!(body.read().unwrap().seed_points.len(), count);
        }
        assert_eq!((kept::<f64>(), kept::<u64>()), ((FEWEST, 510), (FEWEST, 510)));
    }

    /// A refusal is the call's own, also where the lists are too short, and lists stay for the next.
    #[test]
    fn refusals_are_the_calls_own() {
        let payload = seeds(255);
        for length in [0, 3, 4, 4083, 4084] {
            let body = HatchBody::new(&payload[..length], 0, Release::R2000);
            assert_eq!(body.decode().map(|read| read.hatch.places), body.measure().map(|lengths| lengths.places), "{length}");
        }
        assert_eq!(kept::<f64>(), (FEWEST, 510));
    }

    /// A list above the limit is given back.
    #[test]
    fn large_lists_are_not_kept() {
        let long = |words: usize| Lists::<u64> { words: vec![0; words], numbers: vec![0; FEWEST] };
        BITS.with(|kept| kept.set(long(MOST_KEPT)));
        let payload = seeds(1);
        let body = HatchBody::new(&payload, 0, Release::R2000);
        body.decode_bits().unwrap();
        assert_eq!(kept::<u64>(), (MOST_KEPT, FEWEST));
        BITS.with(|kept| kept.set(long(MOST_KEPT + 1)));
        body.decode_bits().unwrap();
        assert_eq!(kept::<u64>(), (0, 0));
    }
}
