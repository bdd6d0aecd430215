//! Answers to request lines, as the protocol fixes them.

use std::fmt::{self, Display, Write as _};
use std::io::{self, Read, Write};

use dwg_hatch::{CommonEntityData, Reading, Refusal, Source, Text};

use crate::jobs;
use crate::protocol::batches::{Batches, Lines};
use crate::protocol::hatch_form;
use crate::protocol::move_form;
use crate::protocol::payload::Zeros;
use crate::protocol::request::{self, Code, CodeRequest, HatchRequest, MoveRequest, PrefixRequest, Request, TextRequest};
use crate::protocol::OUTSIDE;

const BAD_REQUEST: &str = "bad request";

/// Answers requests, one line each.
pub struct Answerer {
    doubles: Doubles,
    zeros: Zeros,
    lists: hatch_form::Lists,
}

impl Answerer {
    /// With `f64_entries` doubles are read by the f64 entries and a NaN is written as 7ff8000000000000, else as their 64 bits.
    pub fn new(f64_entries: bool) -> Answerer {
        let doubles = if f64_entries { Doubles::F64 } else { Doubles::Bits };
        Answerer { doubles, zeros: Zeros::default(), lists: hatch_form::Lists::default() }
    }

    /// The answer to one line, without a line end.
    pub fn line(&mut self, line: &[u8]) -> String {
        match request::parse(line) {
            Some(Request::Code(request)) => self.code(&request),
            Some(Request::Text(request)) => self.text(&request),
            Some(Request::Prefix(request)) => self.prefix(&request),
            Some(Request::Hatch(request)) => self.hatch(&request),
            Some(Request::Move(request)) => self.moved(*request),
            Some(Request::Conversion(request)) => request.line(&mut self.zeros).unwrap_or_else(|refusal| refused(&refusal)),
            None => BAD_REQUEST.to_string(),
        }
    }

    /// The answers to some lines, each with a line end.
    fn lines(&mut self, lines: &[u8]) -> String {
        let mut answers = String::with_capacity(2 * lines.len());
        lines.split_inclusive(|byte| *byte == b'\n').for_each(|line| answers.extend([self.line(line).as_str(), "\n"]));
        answers
    }

    fn code(&mut self, request: &CodeRequest) -> String {
        self.zeros.reserve(&request.payload);
        let (payload, start) = (self.zeros.lend(&request.payload), request.start);
        match request.code {
            Code::B => written(dwg_hatch::read_b(payload, start).map(|(bit, place)| (u8::from(bit), place))),
            Code::Bb => written(dwg_hatch::read_bb(payload, start)),
            Code::ThreeB => written(dwg_hatch::read_3b(payload, start)),
            Code::Bs => written(dwg_hatch::read_bs(payload, start)),
            Code::BsU => written(dwg_hatch::read_bs_u(payload, start)),
            Code::Bl => written(dwg_hatch::read_bl(payload, start)),
            Code::BlU => written(dwg_hatch::read_bl_u(payload, start)),
            Code::Bll => written(dwg_hatch::read_bll(payload, start)),
            Code::Rc => written(dwg_hatch::read_rc(payload, start)),
            Code::Rs => written(dwg_hatch::read_rs(payload, start)),
            Code::Rl => written(dwg_hatch::read_rl(payload, start)),
            Code::Bd => written(self.doubles.read_bd(payload, start)),
            Code::Rd => written(self.doubles.read_rd(payload, start)),
            Code::Dd(default) => written(self.doubles.read_dd(payload, start, default)),
            Code::Handle => written(dwg_hatch::read_handle(payload, start).map(|(handle, place)| {
                (format!("{},{},{}", handle.code, handle.counter, handle.value), place)
            })),
        }
    }

    fn text(&mut self, request: &TextRequest) -> String {
        self.zeros.reserve(&request.payload);
        let payload = self.zeros.lend(&request.payload);
        let reading = dwg_hatch::read_tv(payload, request.start, request.release);
        let form = |text: &Text| {
            let mut form = String::new();
            put_text(&mut form, text, payload);
            form
        };
        written(reading.map(|(text, place)| (form(&text), place)))
    }

    fn prefix(&mut self, request: &PrefixRequest) -> String {
        self.zeros.reserve(&request.payload);
        let payload = self.zeros.lend(&request.payload);
        written(self.doubles.read_prefix(payload, request.start, request.release))
    }

    fn hatch(&mut self, request: &HatchRequest) -> String {
        let body = request.body(&mut self.zeros);
        let line = match self.doubles {
            Doubles::Bits => self.lists.bits_line(&body, request.lent),
            Doubles::F64 => self.lists.f64_line(&body, request.lent),
        };
        line.unwrap_or_else(|refusal| refused(&refusal))
    }

    fn moved(&self, request: MoveRequest) -> String {
        let line = match self.doubles {
            Doubles::Bits => move_form::bits_line(request),
            Doubles::F64 => move_form::f64_line(request),
        };
        line.unwrap_or_else(|refusal| refused(&refusal))
    }
}

/// Adds the protocol's T, SOURCE:WIDTH:POSITION:COUNT:UNITS:PADDED, of a text in its payload. A text that a reading gave lies in that reading's
/// payload; if it does not, no answer is better than a wrong one.
pub fn put_text(line: &mut String, text: &Text, payload: &[u8]) {
    let source = match text.source {
        Source::None => '-',
        Source::Main => 'm',
        Source::String => 's',
    };
    let units = text.units(payload).expect(OUTSIDE);
    write!(line, "{source}:{}:{}:{}:", text.width, text.position, text.count).expect("a String takes every text");
    if units.is_empty() {
        line.push('-');
    }
    units.iter().for_each(|unit| put_digits(line, u64::from(*unit), usize::from(text.width / 4)));
    line.push_str(if text.padded { ":1" } else { ":0" });
}

/// The fields of a prefix's answer after its first place, the second place among them: there is no reader, so it is 0.
fn prefix_form<Scale>(data: &CommonEntityData<Scale>, scale: u64) -> String {
    let bit = u8::from;
    let [full, face, edge] = data.visual_style_flags.map(bit);
    let mut form = String::with_capacity(320);
    let mut put = |text: fmt::Arguments| form.write_fmt(text).expect("a String takes every text");
    put(format_args!("0 rawmode={} mode={:?} reactors={}", data.raw_mode, data.mode, data.num_reactors));
    put(format_args!(" nodict={} chain={}", bit(data.no_xdictionary), bit(data.binary_chain)));
    put(format_args!(" onlayer={} nonfixed={}", bit(data.is_on_layer), bit(data.non_fixed_ltype)));
    put(format_args!(" plot={} material={} shadow={}", data.plotstyle_flag, data.material_flag, data.shadow_flags));
    put(format_args!(" invis={} nolinks={}", data.invisibility, bit(data.nolinks)));
    put(format_args!(" color={} rgb={} alpha={}", data.color_raw, Presence(data.color_rgb), Presence(data.color_alpha)));
    put(format_args!(" scale={} ltype={} vis={full},{face},{edge}", digits(scale), data.ltype_flags));
    put(format_args!(" weight={} gfx={}", data.lineweight, bit(data.had_graphics)));
    put(format_args!(" xdata={} dataend={}", bit(data.had_extended_data), Presence(data.data_end_bits)));
    form
}

/// The protocol's P: whether there is a number, and the number or 0.
struct Presence(Option<u32>);

impl Display for Presence {
    fn fmt(&self, f: &mut fmt::Formatter<'_>) -> fmt::Result {
        write!(f, "{}:{}", u8::from(self.0.is_some()), self.0.unwrap_or(0))
    }
}

/// Which entries read doubles. Both hand over the 16 digits that an answer has.
#[derive(Clone, Copy)]
enum Doubles {
    Bits,
    F64,
}

impl Doubles {
    fn read_bd(self, payload: &[u8], start: usize) -> Reading<String> {
        match self {
            Doubles::Bits => pattern(dwg_hatch::read_bd_bits(payload, start)),
            Doubles::F64 => double(dwg_hatch::read_bd(payload, start)),
        }
    }

    fn read_rd(self, payload: &[u8], start: usize) -> Reading<String> {
        match self {
            Doubles::Bits => pattern(dwg_hatch::read_rd_bits(payload, start)),
            Doubles::F64 => double(dwg_hatch::read_rd(payload, start)),
        }
    }

    fn read_dd(self, payload: &[u8], start: usize, default: u64) -> Reading<String> {
        match self {
            Doubles::Bits => pattern(dwg_hatch::read_dd_bits(payload, start, default)),
            Doubles::F64 => double(dwg_hatch::read_dd(payload, start, f64::from_bits(default))),
        }
    }

    fn read_prefix(self, payload: &[u8], start: usize, release: u64) -> Reading<String> {
        Ok(match self {
            Doubles::Bits => {
                let (data, place) = dwg_hatch::read_common_entity_bits(payload, start, release)?;
                (prefix_form(&data, data.ltype_scale), place)
            }
            Doubles::F64 => {
                let (data, place) = dwg_hatch::read_common_entity_data(payload, start, release)?;
                (prefix_form(&data, one_nan(data.ltype_scale)), place)
            }
        })
    }
}

fn pattern(reading: Reading<u64>) -> Reading<String> {
    reading.map(|(bits, place)| (digits(bits), place))
}

fn double(reading: Reading<f64>) -> Reading<String> {
    pattern(reading.map(|(value, place)| (one_nan(value), place)))
}

/// The protocol's D, of a double's 64 bits.
pub fn digits(bits: u64) -> String {
    let mut text = String::new();
    put_digits(&mut text, bits, 16);
    text
}

/// Adds the last so many hexadecimal digits of a number, 16 at most.
pub fn put_digits(line: &mut String, number: u64, count: usize) {
    let digits: [u8; 16] = std::array::from_fn(|at| b"0123456789abcdef"[(number >> (60 - 4 * at) & 15) as usize]);
    line.push_str(std::str::from_utf8(&digits[16 - count..]).expect("digits are ASCII"));
}

/// Every NaN is written as one, since an f64 entry promises no NaN's pattern.
pub fn one_nan(value: f64) -> u64 {
    const NAN: u64 = 0x7ff8_0000_0000_0000;
    if value.is_nan() { NAN } else { value.to_bits() }
}

fn written<T: Display>(reading: Reading<T>) -> String {
    match reading {
        Ok((value, place)) => format!("ok {place} {value}"),
        Err(refusal) => refused(&refusal),
    }
}

fn refused(refusal: &Refusal) -> String {
    format!("err {} {} {}", refusal.number(), refusal.place, refusal.second_place)
}

/// Answers every line of `input` on `output`, in order, by so many jobs.
///
/// Answers are written out while the input is waited for, so that a program that asks line by line is not left waiting.
pub fn run(input: impl Read + Send + 'static, mut output: impl Write, f64_entries: bool, jobs: usize) -> io::Result<()> {
    let mut batches = Batches::new(input);
    let worker = move || {
        let mut answerer = Answerer::new(f64_entries);
        move |lines: io::Result<Lines>| lines.map(|lines| answerer.lines(&lines.0))
    };
    jobs::in_order(jobs, move || batches.next(), worker, |answers: io::Result<String>| {
        output.write_all(answers?.as_bytes())?;
        output.flush()
    })
}

#[cfg(test)]
mod tests {
    use super::*;

    #[test]
    fn a_line_for_each_request() {
        let mut answerer = Answerer::new(false);
        assert_eq!(answerer.line(b"bs 2 0 3FFFC0"), "ok 18 -1");
        assert_eq!(answerer.line(b"bd 2 0 C0"), "err 2 2 0");
        assert_eq!(answerer.line(b"tv 2 0 40905080"), "ok 26 m:8:10:2:4142:0");
        assert_eq!(answerer.line(b"tv 2 0 40D0508000"), "ok 34 m:8:10:2:4142:1");
        assert_eq!(answerer.line(b"prefix 2 0 404240"), "err 5 18 0");
        assert_eq!(answerer.line(b"hatch 3 0 A9AAA0"), "err 1 22 0");
        assert_eq!(answerer.line(b"bd 2 0"), "bad request");
    }

    #[test]
    fn lines_are_answered_in_order() {
        for jobs in [1, 3] {
            let mut output = Vec::new();
            run(&b"b 1 0 80\nbb 1 0 -"[..], &mut output, false, jobs).unwrap();
            assert_eq!(output, b"ok 1 1\nerr 1 0 0\n", "{jobs} jobs");
        }
    }

    // Today's library hands over this very NaN, but no contract of its f64 entries promises a pattern, so no request can test this.
    #[test]
    fn every_nan_becomes_the_one() {
        for bits in [0x7ff0_0000_0000_0001, 0xfff0_0000_0000_0001, 0xfff8_0000_0000_0000, u64::MAX] {
            assert_eq!(one_nan(f64::from_bits(bits)), 0x7ff8_0000_0000_0000, "{bits:x}");
        }
        for bits in [0, 1, 1 << 63, 0x7ff0_0000_0000_0000, 0xfff0_0000_0000_0000] {
            assert_eq!(one_nan(f64::from_bits(bits)), bits, "{bits:x}");
        }
    }
}
