//! Requests for single codes and inline texts.

use crate::bits;
use crate::doubles;
use crate::encode::Pen;
use crate::encode_text;
use crate::rng::Rng;
use crate::spoil;

const CODES: [&str; 15] =
    ["b", "bb", "3b", "bs", "bsu", "bl", "blu", "bd", "bll", "rc", "rs", "rl", "rd", "dd", "handle"];
const PAYLOADS: usize = 257;

/// Every payload of no byte and of one, for each code, at start 0 and at a start that differs from case to case.
pub const SWEEP: usize = CODES.len() * PAYLOADS * 2;

/// One of the sweep's requests.
pub fn sweep(rng: &mut Rng, index: usize, f64_entries: bool) -> String {
    let (pass, rest) = (index / (CODES.len() * PAYLOADS), index % (CODES.len() * PAYLOADS));
    let (code, payload) = (CODES[rest / PAYLOADS], rest % PAYLOADS);
    let start = if pass == 0 { 0 } else { 1 + rng.below(9) };
    let bytes = if payload == 0 { "-".to_string() } else { format!("{:02X}", payload - 1) };
    request(rng, code, start, &bytes, f64_entries)
}

/// A request for a code; for the f64 entries no default is a NaN, since an f64 cannot carry a NaN's pattern in.
fn request(rng: &mut Rng, code: &str, start: u64, bytes: &str, f64_entries: bool) -> String {
    let release = 1 + rng.below(7);
    let line = format!("{code} {release} {start} {bytes}");
    if code == "dd" { format!("{line} {:016x}", default(rng, f64_entries)) } else { line }
}

fn default(rng: &mut Rng, f64_entries: bool) -> u64 {
    loop {
        let pattern = doubles::pattern(rng);
        if !(f64_entries && doubles::is_nan(pattern)) {
            return pattern;
        }
    }
}

pub fn any(rng: &mut Rng, f64_entries: bool) -> String {
    let code = rng.pick(&CODES);
    match rng.below(40) {
        0..=9 => short(rng, code, f64_entries),
        10 => zeros(rng, code, f64_entries),
        11 if rng.one_in(4) => no_request(rng, code),
        _ => encoded(rng, code, f64_entries),
    }
}

/// Random bytes, two of them mostly.
fn short(rng: &mut Rng, code: &str, f64_entries: bool) -> String {
    let bytes = if rng.bit() { 2 } else { rng.index(12) };
    let content = bits::random(rng, 8 * bytes);
    let start = rng.below(8 * bytes as u64 + 3);
    let start = if rng.bit() { rng.below(3) } else { start };
    request(rng, code, start, &bits::hex(&content), f64_entries)
}

/// Zero bytes, now and then one more than the limit.
fn zeros(rng: &mut Rng, code: &str, f64_entries: bool) -> String {
    let many = rng.pick(&[crate::request::LIMIT, crate::request::LIMIT + 1]);
    let count = if rng.one_in(300) { many } else { rng.below(12) };
    let start = rng.below(20);
    request(rng, code, start, &format!("z{count}"), f64_entries)
}

fn no_request(rng: &mut Rng, code: &str) -> String {
    let lines = [
        format!("{code} 0 0 80"),
        format!("{code} 8 0 80 {:016x}", 0),
        format!("{code} 2 0"),
        format!("{code} 2 0 8"),
        format!("{code} 2 -1 80"),
        format!("{code} 2 0 8G"),
        format!("{code}x 2 0 80"),
        "dd 2 0 80".to_string(),
        "dd 2 0 80 123".to_string(),
        format!("hatch 2 0 80 L {}", rng.below(9)),
    ];
    lines[rng.index(lines.len())].clone()
}

/// A value in any allowed code, as laid out or spoiled.
fn encoded(rng: &mut Rng, code: &str, f64_entries: bool) -> String {
    let mut pen = Pen::new(rng);
    let default = default(rng, f64_entries);
    put(&mut pen, code, default);
    let made = spoil::any(rng, &pen.out);
    let release = 1 + rng.below(7);
    let line = format!("{code} {release} {} {}", made.start, bits::hex(&made.bits));
    if code == "dd" { format!("{line} {default:016x}") } else { line }
}

fn put(pen: &mut Pen, code: &str, default: u64) {
    let any = pen.rng.next();
    let shift = pen.rng.pick(&[0, 16, 32, 48, 56, 57, 63]);
    let whole = any >> shift;
    let short = pen.rng.pick(&[0, 1, 127, 128, 255, 256, 257, 0x7fff, 0x8000, 0xffff, any as u16]);
    let long = pen.rng.pick(&[0, 1, 127, 128, 255, 256, 0x7fff_ffff, 0x8000_0000, u32::MAX, any as u32, whole as u32]);
    match code {
        "b" => pen.raw(any & 1, 1),
        "bb" => pen.raw(any & 3, 2),
        "3b" => pen.raw(any & 7, 3),
        "bs" | "bsu" => pen.bs(short),
        "bl" | "blu" => pen.bl(long),
        "bd" => drop(pen.bd()),
        "bll" => pen.bll(whole >> 8),
        "rc" => pen.bytes(any & 0xff, 1),
        "rs" => pen.bytes(u64::from(short), 2),
        "rl" => pen.bytes(u64::from(long), 4),
        "rd" => drop(pen.rd()),
        "dd" => dd(pen, default),
        _ => pen.handle(),
    }
}

/// A value that shares some of the default's bytes.
fn dd(pen: &mut Pen, default: u64) {
    let any = doubles::pattern(&mut pen.rng);
    let kept = pen.rng.pick(&[0, 16, 32, 64]);
    let mask = if kept == 0 { 0 } else { u64::MAX << (64 - kept) };
    pen.dd(default & mask | any & !mask, default);
}

/// Inline text of any release.
pub fn tv(rng: &mut Rng) -> String {
    let release = 1 + rng.below(7);
    let mut pen = Pen::new(rng);
    let wrong_width = rng.pick(&[8, 16]);
    let width = if rng.one_in(20) { wrong_width } else { encode_text::width(release) };
    encode_text::text(&mut pen, width);
    let made = if rng.bit() { spoil::whole(rng, &pen.out) } else { spoil::any(rng, &pen.out) };
    format!("tv {release} {} {}", made.start, bits::hex(&made.bits))
}
