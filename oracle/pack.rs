//! Standard input: lines REQUEST, tab, ANSWER, as `oracle stored` prints them. Standard output: a record of 64-bit items, low byte
//! first, for each line and each call that serves it, of hatches (`pack hatches`, for crate hatch_vectors) or of all others (`pack others`,
//! for crate vectors):
//!   how many items follow; the line's number from 1; the kind; the release; the start; four further numbers of the request;
//!   the payload's length in bytes, the strings' length (0 without a reader); the bytes of both, each padded to whole items;
//!   the refusal's number or 0, the place, the second place, how many values, the values (signed ones in two's complement).
//! A line with a payload above the limit has no record: crate limit replays it.
//!
//! To add a kind: its number in KINDS and in the program's src/, its further numbers in `request`, its values in `values`.

use std::io::{Read, Write};

/// The name in a request, the number of the kind, and whether this is the call that hands over f64, whose NaN is 7ff8000000000000.
const KINDS: [(&str, u64, bool); 23] = [
    ("b", 1, false),
    ("bb", 2, false),
    ("3b", 3, false),
    ("bs", 4, false),
    ("bsu", 5, false),
    ("bl", 6, false),
    ("blu", 7, false),
    ("bd", 8, false),
    ("bll", 9, false),
    ("rc", 10, false),
    ("rs", 11, false),
    ("rl", 12, false),
    ("rd", 13, false),
    ("handle", 14, false),
    ("dd", 15, false),
    ("bd", 16, true),
    ("rd", 17, true),
    ("dd", 18, true),
    ("prefix", 19, false),
    ("tv", 20, false),
    ("hatch", 21, false),
    ("hatchs", 22, false),
    ("hatchs", READER, false),
];

/// The kinds that call a hatch; and the one that reads the text of a hatch by a reader alone.
const HATCHES: [u64; 2] = [21, 22];
const READER: u64 = 23;

/// The last release whose bodies have no gradient, and so one text.
const ONE_TEXT: u64 = 2;

/// What the programs have room for: the numbers of an answer, the entries of each lent list, the bytes of a record. A hatch without lent
/// lengths is lent all entries.
const ROOM: usize = 1024;
const LENT: u64 = 512;
const SPACE: usize = 65_536;

/// Document 01's limit of a payload, in bytes.
const LIMIT: u64 = 268_435_456;

/// Which further number is which: a default, or the string start and end; then the lent lengths, of words and of numbers.
const FIRST: usize = 0;
const STRING_END: usize = 1;
const WORDS: usize = 2;
const NUMBERS: usize = 3;

#[derive(Default)]
struct Request {
    release: u64,
    start: u64,
    further: [u64; 4],
    main: Vec<u8>,
    strings: Vec<u8>,
}

fn decimal(text: &str) -> Result<u64, String> {
    match text.parse::<u64>() {
        Ok(number) => Ok(number),
        Err(_) => text.parse::<i64>().map(|number| number as u64).map_err(|_| format!("no number: {text}")),
    }
}

fn hex(text: &str) -> Result<u64, String> {
    u64::from_str_radix(text, 16).map_err(|_| format!("no hexadecimal number: {text}"))
}

/// The bytes of a payload: `-` for none, `zN` for N zeros, or hexadecimal.
fn payload(text: &str) -> Result<Vec<u8>, String> {
    if let Some(zeros) = text.strip_prefix('z') {
        return Ok(vec![0; decimal(zeros)? as usize]);
    }
    if text == "-" {
        return Ok(Vec::new());
    }
    if !text.is_ascii() || text.len() % 2 != 0 {
        return Err(format!("no bytes: {text}"));
    }
    (0..text.len()).step_by(2).map(|i| hex(&text[i..i + 2]).map(|byte| byte as u8)).collect()
}

/// Whether a payload of the request is above the limit.
fn above_limit(words: &[&str]) -> bool {
    words.iter().any(|word| word.strip_prefix('z').and_then(|zeros| zeros.parse::<u64>().ok()).is_some_and(|zeros| zeros > LIMIT))
}

/// The lent lengths, of words and of numbers.
fn lent(words: &[&str]) -> Result<[u64; 2], String> {
    let lengths = match words {
        [] => [LENT, LENT],
        ["L", words, numbers] => [decimal(words)?, decimal(numbers)?],
        _ => return Err("no lent lengths".to_string()),
    };
    if lengths.iter().any(|length| *length > LENT) {
        return Err(format!("no room for lists of {lengths:?}"));
    }
    Ok(lengths)
}

/// NAME REL START MAIN, and what the kind has beside these.
fn request(words: &[&str]) -> Result<Request, String> {
    let [name, release, start, main, rest @ ..] = words else {
        return Err("too few words".to_string());
    };
    let mut further = [0; 4];
    let mut strings = Vec::new();
    match (*name, rest) {
        ("dd", [default]) => further[FIRST] = hex(default)?,
        ("hatch", lengths) => [further[WORDS], further[NUMBERS]] = lent(lengths)?,
        ("hatchs", [start, end, bytes, lengths @ ..]) => {
            [further[FIRST], further[STRING_END]] = [decimal(start)?, decimal(end)?];
            [further[WORDS], further[NUMBERS]] = lent(lengths)?;
            strings = payload(bytes)?;
        }
        (_, []) => {}
        _ => return Err("words left over".to_string()),
    }
    Ok(Request { release: decimal(release)?, start: decimal(start)?, further, main: payload(main)?, strings })
}

/// What each field of a prefix's answer is called, in the answer's order.
const FIELDS: [&str; 22] = [
    "rawmode", "mode", "reactors", "nodict", "chain", "onlayer", "nonfixed", "plot", "material", "shadow", "invis", "nolinks", "color",
    "rgb", "alpha", "scale", "ltype", "vis", "weight", "gfx", "xdata", "dataend",
];

/// The modes, each numbered by its place here.
const MODES: [&str; 4] = ["ByLayer", "ByPreviousEntity", "InBlock", "Reserved"];

/// A field's numbers: the scale as its 64 bits, the three of `vis`, and whether a number is there before the number itself.
fn field(name: &str, text: &str) -> Result<Vec<u64>, String> {
    match name {
        "mode" => match MODES.iter().position(|mode| *mode == text) {
            Some(number) => Ok(vec![number as u64]),
            None => Err(format!("no mode: {text}")),
        },
        "scale" => Ok(vec![hex(text)?]),
        _ => text.split([',', ':']).map(decimal).collect(),
    }
}

/// The numbers of fields that are called so, each read by `one`.
fn fields(names: &[&str], one: fn(&str, &str) -> Result<Vec<u64>, String>, words: &[&str]) -> Result<Vec<u64>, String> {
    if words.len() != names.len() {
        return Err(format!("{} fields", words.len()));
    }
    let mut numbers = Vec::new();
    for (name, word) in names.iter().zip(words) {
        match word.split_once('=') {
            Some((found, text)) if found == *name => numbers.extend(one(name, text)?),
            _ => return Err(format!("no {name}: {word}")),
        }
    }
    Ok(numbers)
}

/// Where a text lies, each numbered by its place here.
const SOURCES: [&str; 3] = ["-", "m", "s"];

/// A text's numbers: source, width, position, count, whether it is padded, and its units.
fn text(answer: &str) -> Result<Vec<u64>, String> {
    let words: Vec<&str> = answer.split(':').collect();
    let [source, width, position, count, units, padded] = words[..] else {
        return Err(format!("no text: {answer}"));
    };
    let source = SOURCES.iter().position(|known| *known == source).ok_or(format!("no source: {source}"))?;
    if !["0", "1"].contains(&padded) {
        return Err(format!("neither padded nor not: {answer}"));
    }
    let mut numbers = vec![source as u64, decimal(width)?, decimal(position)?, decimal(count)?, decimal(padded)?];
    let units = if units == "-" { "" } else { units };
    let digits = if numbers[1] == 16 { 4 } else { 2 };
    if !units.is_ascii() || units.len() as u64 != digits * numbers[3] {
        return Err(format!("not {count} units: {units}"));
    }
    for at in (0..units.len()).step_by(digits as usize) {
        numbers.push(hex(&units[at..at + digits as usize])?);
    }
    Ok(numbers)
}

/// What each field of a hatch's answer is called, in the answer's order.
const HATCH_FIELDS: [&str; 26] = [
    "grad", "gangle", "gshift", "gsingle", "gtint", "gn", "gcols", "gname", "elev", "ext", "name", "solid", "assoc", "style", "type",
    "pangle", "pscale", "pdouble", "pixel", "npaths", "nlines", "nseeds", "nw", "nn", "words", "nums",
];

/// A list of numbers, `-` being none.
fn list(text: &str, separator: char, one: fn(&str) -> Result<u64, String>) -> Result<Vec<u64>, String> {
    if text == "-" { Ok(Vec::new()) } else { text.split(separator).map(one).collect() }
}

/// The colours' numbers: of each the double, the short, the colour and the byte.
fn colours(text: &str) -> Result<Vec<u64>, String> {
    let mut numbers = Vec::new();
    for colour in text.split(';').filter(|colour| *colour != "-") {
        let words: Vec<&str> = colour.split('/').collect();
        let [double, short, rgb, byte] = words[..] else {
            return Err(format!("no colour: {colour}"));
        };
        numbers.extend([hex(double)?, decimal(short)?, decimal(rgb)?, decimal(byte)?]);
    }
    Ok(numbers)
}

/// A hatch field's numbers: doubles as their 64 bits.
fn hatch_field(name: &str, answer: &str) -> Result<Vec<u64>, String> {
    match name {
        "gname" | "name" => text(answer),
        "gcols" => colours(answer),
        "words" => list(answer, ',', decimal),
        "gangle" | "gshift" | "gtint" | "elev" | "ext" | "pangle" | "pscale" | "pixel" | "nums" => list(answer, ',', hex),
        _ => Ok(vec![decimal(answer)?]),
    }
}

fn values(name: &str, answer: &str) -> Result<Vec<u64>, String> {
    match name {
        "tv" => text(answer),
        "bd" | "rd" | "dd" => Ok(vec![hex(answer)?]),
        "handle" => answer.split(',').map(decimal).collect(),
        _ => Ok(vec![decimal(answer)?]),
    }
}

fn reading(place: u64, second: u64, values: Vec<u64>) -> Vec<u64> {
    let mut outcome = vec![0, place, second, values.len() as u64];
    outcome.extend(values);
    outcome
}

/// Refusal, places, how many values, values.
fn outcome(name: &str, answer: &str) -> Result<Vec<u64>, String> {
    let words: Vec<&str> = answer.split(' ').collect();
    match words[..] {
        ["err", number, place, second] => Ok(vec![decimal(number)?, decimal(place)?, decimal(second)?, 0]),
        ["ok", place, second, ref rest @ ..] if name == "prefix" => {
            Ok(reading(decimal(place)?, decimal(second)?, fields(&FIELDS, field, rest)?))
        }
        ["ok", place, second, ref rest @ ..] if name == "hatch" || name == "hatchs" => {
            Ok(reading(decimal(place)?, decimal(second)?, fields(&HATCH_FIELDS, hatch_field, rest)?))
        }
        ["ok", place, value] => Ok(reading(decimal(place)?, 0, values(name, value)?)),
        _ => Err(format!("no answer: {answer}")),
    }
}

fn is_nan(bits: u64) -> bool {
    f64::from_bits(bits).is_nan()
}

/// The answer of the call that hands over f64. It has no answer to a NaN as a default, since an f64 carries no NaN's pattern in.
fn as_f64(name: &str, request: &Request, mut outcome: Vec<u64>) -> Option<Vec<u64>> {
    if name == "dd" && is_nan(request.further[FIRST]) {
        return None;
    }
    for value in &mut outcome[4..] {
        if is_nan(*value) {
            *value = 0x7ff8_0000_0000_0000;
        }
    }
    Some(outcome)
}

/// The text of a hatch body by a reader: a request on the strings, with their end bit, and the text or its refusal, and the position; none where the
/// body's answer does not have both. A body of one text has them where it was read, where text passed the end bit, where the units were not
/// UTF-16, and where the string start lies past the strings.
fn reader(request: &Request, outcome: &[u64], answer: &str) -> Option<(Request, Vec<u64>)> {
    let start = request.further[FIRST];
    let is_past = start > 8 * request.strings.len() as u64;
    if !(1..=ONE_TEXT).contains(&request.release) || !(is_past || [0, 6, 7].contains(&outcome[0])) {
        return None;
    }
    let mut further = [0; 4];
    further[FIRST] = request.further[STRING_END];
    let asked = Request { release: request.release, start, further, main: request.strings.clone(), ..Request::default() };
    match answer.split(' ').find_map(|word| word.strip_prefix("name=")) {
        Some(name) => Some((asked, reading(outcome[2], 0, text(name).ok()?))),
        None => Some((asked, vec![outcome[0], outcome[2], 0, 0])),
    }
}

fn record(line: u64, kind: u64, request: &Request, outcome: &[u64]) -> Result<Vec<u8>, String> {
    let (main, strings) = (&request.main, &request.strings);
    let mut items = vec![line, kind, request.release, request.start];
    items.extend(request.further);
    items.extend([main.len() as u64, strings.len() as u64]);
    for part in main.chunks(8).chain(strings.chunks(8)) {
        let mut bytes = [0; 8];
        bytes[..part.len()].copy_from_slice(part);
        items.push(u64::from_le_bytes(bytes));
    }
    items.extend(outcome);
    if outcome.len() > ROOM || 8 * items.len() > SPACE {
        return Err(format!("no room for {} items and {} numbers", items.len(), outcome.len()));
    }
    items.insert(0, items.len() as u64);
    Ok(items.iter().flat_map(|item| item.to_le_bytes()).collect())
}

/// The line's records of hatches, or of all other kinds.
fn pack(line: u64, text: &str, hatches: bool, out: &mut Vec<u8>) -> Result<(), String> {
    let (asked, answer) = text.split_once('\t').ok_or("no tab")?;
    let words: Vec<&str> = asked.split(' ').collect();
    if above_limit(&words) {
        return Ok(());
    }
    let request = request(&words)?;
    let outcome = outcome(words[0], answer)?;
    let mut is_known = false;
    for (_, kind, is_f64) in KINDS.into_iter().filter(|(name, ..)| *name == words[0]) {
        is_known = true;
        if HATCHES.contains(&kind) != hatches {
            continue;
        }
        if kind == READER {
            if let Some((asked, expected)) = reader(&request, &outcome, answer) {
                out.extend(record(line, kind, &asked, &expected)?);
            }
            continue;
        }
        let expected = if is_f64 { as_f64(words[0], &request, outcome.clone()) } else { Some(outcome.clone()) };
        if let Some(expected) = expected {
            out.extend(record(line, kind, &request, &expected)?);
        }
    }
    if is_known { Ok(()) } else { Err(format!("no such kind: {}", words[0])) }
}

fn main() -> Result<(), String> {
    let hatches = match std::env::args().nth(1).as_deref() {
        Some("hatches") => true,
        Some("others") => false,
        _ => return Err("usage: pack hatches|others".to_string()),
    };
    let mut text = String::new();
    std::io::stdin().read_to_string(&mut text).map_err(|error| error.to_string())?;
    let mut out = Vec::new();
    for (index, line) in text.lines().enumerate() {
        let number = index as u64 + 1;
        pack(number, line, hatches, &mut out).map_err(|error| format!("line {number}: {error}"))?;
    }
    std::io::stdout().write_all(&out).map_err(|error| error.to_string())
}
