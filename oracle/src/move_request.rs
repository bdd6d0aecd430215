//! A request `move X Y R`: the origin, and a record with its lists as the fields that a hatch's answer prints.

use std::collections::BTreeMap;

/// What document 02's text about the moved origin looks at. Doubles are their 64 bits.
#[derive(Default)]
pub struct MoveRequest {
    pub origin: [u64; 2],
    pub extrusion: [u64; 3],
    /// Solid, associative and double, as bytes.
    pub switches: [u64; 3],
    pub colours: u64,
    pub paths: u64,
    pub lines: u64,
    pub seeds: u64,
    pub words_used: u64,
    pub numbers_used: u64,
    pub words: Vec<u32>,
    pub numbers: Vec<u64>,
}

/// What a field's value is.
#[derive(Clone, Copy)]
enum Form {
    /// A number from 0 to this one.
    UpTo(u64),
    Double,
    ThreeDoubles,
    Text,
    Colours,
    Words,
    Numbers,
}

const BYTE: Form = Form::UpTo(255);
const SHORT: Form = Form::UpTo(65_535);
const LONG: Form = Form::UpTo(4_294_967_295);
const ANY: Form = Form::UpTo(u64::MAX);

const FORMS: [(&str, Form); 27] = [
    ("grad", Form::UpTo(1)), ("gflag", LONG), ("gangle", Form::Double), ("gshift", Form::Double), ("gsingle", LONG),
    ("gtint", Form::Double), ("gn", ANY), ("gcols", Form::Colours), ("gname", Form::Text), ("elev", Form::Double),
    ("ext", Form::ThreeDoubles), ("name", Form::Text), ("solid", BYTE), ("assoc", BYTE), ("style", SHORT), ("type", SHORT),
    ("pangle", Form::Double), ("pscale", Form::Double), ("pdouble", BYTE), ("pixel", Form::Double), ("npaths", ANY),
    ("nlines", ANY), ("nseeds", ANY), ("nw", ANY), ("nn", ANY), ("words", Form::Words), ("nums", Form::Numbers),
];

/// The request; None is answered `bad request`.
pub fn parse(fields: &[&str]) -> Option<MoveRequest> {
    let [x, y, rest @ ..] = fields else { return None };
    let mut given = BTreeMap::new();
    for field in rest {
        let (name, value) = field.split_once('=')?;
        let (_, form) = FORMS.iter().find(|(known, _)| *known == name)?;
        if !fits(value, *form) || given.insert(name, value).is_some() {
            return None;
        }
    }
    let value = |name: &str| given.get(name).map_or(0, |text| number(text).expect("a number that was looked at"));
    let list = |name: &str| given.get(name).map_or(Vec::new(), |text| items(text, ','));
    let extrusion: Vec<u64> = given.get("ext").map_or(vec![0; 3], |text| text.split(',').filter_map(double).collect());
    let words: Vec<u32> = list("words").iter().filter_map(|text| number(text)).map(|word| word as u32).collect();
    let numbers: Vec<u64> = list("nums").iter().filter_map(|text| double(text)).collect();
    Some(MoveRequest {
        origin: [double(x)?, double(y)?],
        extrusion: extrusion.try_into().ok()?,
        switches: ["solid", "assoc", "pdouble"].map(value),
        colours: value("gn"),
        paths: value("npaths"),
        lines: value("nlines"),
        seeds: value("nseeds"),
        words_used: if given.contains_key("nw") { value("nw") } else { words.len() as u64 },
        numbers_used: if given.contains_key("nn") { value("nn") } else { numbers.len() as u64 },
        words,
        numbers,
    })
}

/// Whether a value is one that the field can have.
fn fits(text: &str, form: Form) -> bool {
    match form {
        Form::UpTo(greatest) => number(text).is_some_and(|value| value <= greatest),
        Form::Double => double(text).is_some(),
        Form::ThreeDoubles => text.split(',').count() == 3 && text.split(',').all(|part| double(part).is_some()),
        Form::Text => is_text(text),
        Form::Colours => items(text, ';').len() <= 16 && items(text, ';').iter().all(|colour| is_colour(colour)),
        Form::Words => items(text, ',').iter().all(|word| fits(word, LONG)),
        Form::Numbers => items(text, ',').iter().all(|part| double(part).is_some()),
    }
}

/// A list's items; `-` has none.
fn items(text: &str, separator: char) -> Vec<&str> {
    if text == "-" { Vec::new() } else { text.split(separator).collect() }
}

/// DOUBLE/SHORT/RGB/BYTE.
fn is_colour(text: &str) -> bool {
    let parts: Vec<&str> = text.split('/').collect();
    let [value, short, rgb, byte] = parts[..] else { return false };
    let magnitude = match short.strip_prefix('-') {
        Some(digits) => number(digits).is_some_and(|value| value <= 32_768),
        None => number(short).is_some_and(|value| value <= 32_767),
    };
    double(value).is_some() && magnitude && fits(rgb, LONG) && fits(byte, BYTE)
}

/// SOURCE:WIDTH:POSITION:COUNT:UNITS:PADDED; units are spelled by the width, 8 or 16 bits each, or there are none; padded is 0 or 1, as
/// `grad` is.
fn is_text(text: &str) -> bool {
    let parts: Vec<&str> = text.split(':').collect();
    let [source, width, position, count, units, padded] = parts[..] else { return false };
    let digits = match width {
        "8" | "08" | "008" => 2,
        "16" | "016" => 4,
        _ => 0,
    };
    let spelled = digits > 0 && !units.is_empty() && units.len() % digits == 0 && units.bytes().all(|b| b.is_ascii_hexdigit());
    let numbers = fits(width, BYTE) && fits(position, ANY) && fits(count, ANY) && fits(padded, Form::UpTo(1));
    ["m", "s", "-"].contains(&source) && numbers && (units == "-" || spelled)
}

fn number(text: &str) -> Option<u64> {
    if text.bytes().all(|b| b.is_ascii_digit()) { text.parse().ok() } else { None }
}

fn double(text: &str) -> Option<u64> {
    let plain = text.len() == 16 && text.bytes().all(|b| b.is_ascii_hexdigit());
    if plain { u64::from_str_radix(text, 16).ok() } else { None }
}
