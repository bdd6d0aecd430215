//! A hatch body's answer line.

use std::fmt::{self, Write};

use dwg_hatch::{GradientFill, Hatch, HatchBody, Reason, Refusal, Text};

use crate::protocol::answer::{one_nan, put_digits, put_text};
use crate::protocol::lists::lengths;
use crate::protocol::request::Lent;
use crate::protocol::OUTSIDE;

/// What the lent lists hold before a call. What is left of it afterwards is looked at.
const BEFORE: u32 = 0x5a5a_5a5a;

/// A body of at most so many bytes is read at once into lists of so many entries. Most are so short, and are not measured before.
const SHORT_BODY: usize = 2048;
const AT_ONCE: Lent = Lent { words: 256, numbers: 256 };

/// Lists above so many entries are given back after the call.
const MOST_KEPT: usize = 1 << 16;

/// The lists that are lent, kept from one request to the next. Between two calls every entry is [`BEFORE`].
#[derive(Default)]
pub struct Lists {
    words: Vec<u32>,
    bits: Vec<u64>,
    doubles: Vec<f64>,
}

impl Lists {
    /// The line of a body that is read with each double as its 64 bits.
    pub fn bits_line(&mut self, body: &HatchBody, lent: Option<Lent>) -> Result<String, Refusal> {
        let mut lists = Two { words: &mut self.words, numbers: &mut self.bits, before: u64::from(BEFORE) };
        let hatch = lists.read(body, lent, |numbers, words| body.decode_bits_into(numbers, words))?;
        let line = line(body, &hatch, lists.words, lists.numbers, |bits| bits);
        lists.put_back(&hatch);
        Ok(line)
    }

    /// The line of a body that is read as f64, each NaN written as one.
    pub fn f64_line(&mut self, body: &HatchBody, lent: Option<Lent>) -> Result<String, Refusal> {
        let mut lists = Two { words: &mut self.words, numbers: &mut self.doubles, before: f64::from(BEFORE) };
        let hatch = lists.read(body, lent, |numbers, words| body.decode_into(numbers, words))?;
        let line = line(body, &hatch, lists.words, lists.numbers, one_nan);
        lists.put_back(&hatch);
        Ok(line)
    }
}

/// The two lists of a call.
struct Two<'a, Double> {
    words: &'a mut Vec<u32>,
    numbers: &'a mut Vec<Double>,
    before: Double,
}

impl<Double: Copy + PartialEq> Two<'_, Double> {
    /// Reads the body into lists of the lengths that the request lends, or into long enough ones.
    fn read(
        &mut self,
        body: &HatchBody,
        lent: Option<Lent>,
        decode: impl Fn(&mut [Double], &mut [u32]) -> Result<Hatch<Double>, Refusal>,
    ) -> Result<Hatch<Double>, Refusal> {
        if lent.is_none() && body.payload.len() <= SHORT_BODY {
            match self.lend(AT_ONCE, &decode) {
                Err(Refusal { reason: Reason::ListTooShort, .. }) => {}
                read => return read,
            }
        }
        self.lend(lengths(body, lent)?, decode)
    }

    /// Lends lists of these lengths. Entries past the lengths used are as they were, and on a refusal all are; if they are not, no answer is better
    /// than a wrong one.
    fn lend(
        &mut self,
        lent: Lent,
        decode: impl Fn(&mut [Double], &mut [u32]) -> Result<Hatch<Double>, Refusal>,
    ) -> Result<Hatch<Double>, Refusal> {
        self.words.resize(self.words.len().max(lent.words), BEFORE);
        self.numbers.resize(self.numbers.len().max(lent.numbers), self.before);
        let (words, numbers) = (&mut self.words[..lent.words], &mut self.numbers[..lent.numbers]);
        let read = decode(numbers, words);
        let (words_used, numbers_used) = read.as_ref().map_or((0, 0), |hatch| (hatch.words_used, hatch.numbers_used));
        assert!(words.get(words_used..).is_some_and(|rest| rest.iter().all(|word| *word == BEFORE)), "{OUTSIDE}");
        assert!(numbers.get(numbers_used..).is_some_and(|rest| rest.iter().all(|number| *number == self.before)), "{OUTSIDE}");
        read
    }

    /// Makes the lists as they were before the call, or gives large ones back.
    fn put_back(&mut self, hatch: &Hatch<Double>) {
        self.words[..hatch.words_used].fill(BEFORE);
        self.numbers[..hatch.numbers_used].fill(self.before);
        if self.words.len().max(self.numbers.len()) > MOST_KEPT {
            (*self.words, *self.numbers) = (Vec::new(), Vec::new());
        }
    }
}

/// The line of a hatch; the lists may be longer than what is used of them.
fn line<Double: Copy>(body: &HatchBody, hatch: &Hatch<Double>, words: &[u32], numbers: &[Double], bits: fn(Double) -> u64) -> String {
    let (words, numbers) = (&words[..hatch.words_used], &numbers[..hatch.numbers_used]);
    let mut line = Line { text: String::with_capacity(640 + 17 * numbers.len() + 4 * words.len()), bits };
    line.put(format_args!("ok {} {}", hatch.places.main, hatch.places.string));
    line.gradient(body, hatch.gradient.as_ref());
    line.double(" elev=", hatch.elevation);
    [" ext=", ",", ","].iter().zip(hatch.extrusion).for_each(|(name, value)| line.double(name, value));
    line.text(body, " name=", &hatch.pattern_name);
    line.put(format_args!(" solid={} assoc={}", u8::from(hatch.solid_fill), u8::from(hatch.associative)));
    line.put(format_args!(" style={} type={}", hatch.pattern_style, hatch.pattern_type));
    line.double(" pangle=", hatch.pattern_angle);
    line.double(" pscale=", hatch.pattern_scale);
    line.put(format_args!(" pdouble={}", u8::from(hatch.pattern_double)));
    line.double(" pixel=", hatch.pixel_size);
    line.put(format_args!(" npaths={} nlines={} nseeds={}", hatch.num_paths, hatch.num_pattern_lines, hatch.num_seed_points));
    line.put(format_args!(" nw={} nn={}", hatch.words_used, hatch.numbers_used));
    line.list(" words=", ",", words, |line, word| line.put(format_args!("{word}")));
    line.list(" nums=", ",", numbers, |line, number| line.double("", *number));
    line.text
}

/// A line that grows, and how a double's 64 bits are had.
struct Line<Double> {
    text: String,
    bits: fn(Double) -> u64,
}

impl<Double: Copy> Line<Double> {
    fn put(&mut self, text: fmt::Arguments) {
        self.text.write_fmt(text).expect("a String takes every text");
    }

    fn double(&mut self, name: &str, value: Double) {
        self.text.push_str(name);
        put_digits(&mut self.text, (self.bits)(value), 16);
    }

    /// A text with its units, from the payload that it names.
    fn text(&mut self, body: &HatchBody, name: &str, text: &Text) {
        self.text.push_str(name);
        put_text(&mut self.text, text, body.payload_of(text).expect(OUTSIDE));
    }

    /// The protocol's lists: `-` for no items.
    fn list<Item>(&mut self, name: &str, separator: &str, items: &[Item], mut put: impl FnMut(&mut Self, &Item)) {
        self.text.push_str(name);
        if items.is_empty() {
            self.text.push('-');
        }
        for (at, item) in items.iter().enumerate() {
            if at > 0 {
                self.text.push_str(separator);
            }
            put(self, item);
        }
    }

    /// The gradient's fields, each 0 where there is no gradient.
    fn gradient(&mut self, body: &HatchBody, fill: Option<&GradientFill<Double>>) {
        let Some(fill) = fill else {
            let zero = "0000000000000000";
            return self.put(format_args!(" grad=0 gangle={zero} gshift={zero} gsingle=0 gtint={zero} gn=0 gcols=- gname=-:0:0:0:-:0"));
        };
        self.double(" grad=1 gangle=", fill.angle);
        self.double(" gshift=", fill.shift);
        self.put(format_args!(" gsingle={}", fill.is_single_color));
        self.double(" gtint=", fill.tint);
        self.put(format_args!(" gn={}", fill.colors.len()));
        self.list(" gcols=", ";", &fill.colors, |line, color| {
            line.double("", color.unknown_double);
            line.put(format_args!("/{}/{}/{}", color.unknown_short, color.rgb, color.ignored_color_byte));
        });
        self.text(body, " gname=", &fill.name);
    }
}

#[cfg(test)]
mod tests {
    use super::*;
    use crate::protocol::answer::Answerer;

    /// Answers over kept lists are those of an answerer that was asked nothing before, short and long bodies and refusals in turn.
    #[test]
    fn what_was_asked_before_does_not_matter() {
        let list = include_str!("../../../crates/vectors/data/list");
        let lines: Vec<&str> = list.lines().filter(|line| line.starts_with("hatch")).map(|line| line.split('\t').next().expect("a request")).collect();
        assert!(lines.len() > 300);
        for f64_entries in [false, true] {
            let mut kept = Answerer::new(f64_entries);
            let turn = lines.iter().chain(lines.iter().rev());
            for line in turn {
                assert_eq!(kept.line(line.as_bytes()), Answerer::new(f64_entries).line(line.as_bytes()), "{line:.80}");
            }
        }
    }

    /// A body of more numbers than are lent at once; afterwards every entry is as before.
    #[test]
    fn long_lists_are_lent_after_measuring() {
        let mut lists = Lists::default();
        let seeds = [&[0xa9, 0xaa, 0x90, 0x10][..], &[0; 16]].concat();
        let body = HatchBody { payload: &seeds, start: 0, release_number: 2, strings: None };
        let short = lists.bits_line(&body, None).expect("a hatch");
        assert!(short.ends_with(" nw=0 nn=2 words=- nums=0000000000000000,0000000000000000"), "{short}");
        assert_eq!((lists.words.len(), lists.bits.len(), lists.doubles.len()), (AT_ONCE.words, AT_ONCE.numbers, 0));
        let many = [&[0xa9, 0xaa, 0x9f, 0xf0][..], &[0; 16 * 255]].concat();
        let body = HatchBody { payload: &many, ..body };
        assert!(lists.bits_line(&body, None).expect("a hatch").contains(" nn=510 "));
        assert_eq!(lists.bits.len(), 511);
        assert!(lists.bits.iter().all(|bits| *bits == u64::from(BEFORE)) && lists.words.iter().all(|word| *word == BEFORE));
    }
}
