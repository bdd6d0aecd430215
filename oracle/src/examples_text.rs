//! Examples of texts, worked out by hand from document 02's padded names and from document 01: what was dropped, and what an answer says of it.

use crate::examples::hex;

const ONE: &str = "3ff0000000000000";
const ZERO: &str = "0000000000000000";

/// Inline texts.
const INLINE: &[(&str, &str)] = &[
    // One zero unit alone: count 0, and padded.
    ("tv 3 0 404000", "ok 18 m:8:10:0:-:1"),
    ("tv 4 0 40400000", "ok 26 m:16:10:0:-:1"),
    // Two: one is dropped, the other counts.
    ("tv 3 0 40800000", "ok 26 m:8:10:1:00:1"),
    ("tv 4 0 408000000000", "ok 42 m:16:10:1:0000:1"),
    // A length of 0 in each code, whatever comes behind it.
    ("tv 1 0 8000", "ok 2 m:8:2:0:-:0"),
    ("tv 4 0 800000", "ok 2 m:16:2:0:-:0"),
    ("tv 3 0 4000000000", "ok 10 m:8:10:0:-:0"),
    ("tv 7 0 4000000000", "ok 10 m:16:10:0:-:0"),
    ("tv 3 0 0000000000", "ok 18 m:8:18:0:-:0"),
    ("tv 4 0 0000000000", "ok 18 m:16:18:0:-:0"),
    // A zero before another unit is not closing; a zero bit behind the units is no unit.
    ("tv 3 0 40D0401080", "ok 34 m:8:10:3:410042:0"),
    ("tv 3 0 40504000", "ok 18 m:8:10:1:41:0"),
    // A 16-bit unit with one byte of zeros is no zero unit.
    ("tv 4 0 40401040", "ok 26 m:16:10:1:4100:0"),
    ("tv 4 0 40504000", "ok 26 m:16:10:1:0041:0"),
    // Bytes from 80 up before the zero.
    ("tv 3 0 40BFC000", "ok 26 m:8:10:1:ff:1"),
    // A zero that is cut short is a text cut short.
    ("tv 3 0 4040", "err 1 10 0"),
    ("tv 4 0 404000", "err 1 18 0"),
];

/// A body of release 2 whose one text the reader gives (in the body none is laid out): string start, end bit, strings; where they end, and the name.
const BY_READER: &[(&str, &str, &str)] = &[
    // At or past the end bit: empty, nothing moves, and not padded, whatever lies there.
    ("3 3 4040", "3", "s:16:3:0:-:0"),
    ("3 2 4040", "3", "s:16:3:0:-:0"),
    ("0 0 40400000", "0", "s:16:0:0:-:0"),
    ("16 16 0000", "16", "s:16:16:0:-:0"),
    // A length of 0 whose code crosses the end bit moves, and is not padded.
    ("0 1 80", "2", "s:16:2:0:-:0"),
    ("0 9 4000", "10", "s:16:10:0:-:0"),
    ("0 17 00000000", "18", "s:16:18:0:-:0"),
    // A length of 0 before it.
    ("0 32 80000000", "2", "s:16:2:0:-:0"),
    // Zeros that end just at the end bit; a unit that does.
    ("0 26 40400000", "26", "s:16:10:0:-:1"),
    ("0 42 408000000000", "42", "s:16:10:1:0000:1"),
    ("0 26 40504000", "26", "s:16:10:1:0041:0"),
];

/// A hatch's answer with no more in it than its names, and 1 where the gradient is present.
fn read(places: &str, gradient: u8, gradient_name: &str, name: &str) -> String {
    format!(
        "ok {places} grad={gradient} gangle={ZERO} gshift={ZERO} gsingle=0 gtint={ZERO} gn=0 gcols=- gname={gradient_name} elev={ZERO} \
         ext={ZERO},{ZERO},{ONE} name={name} solid=1 assoc=0 style=0 type=0 pangle={ZERO} pscale={ZERO} pdouble=0 pixel={ZERO} npaths=0 \
         nlines=0 nseeds=0 nw=0 nn=0 words=- nums=-"
    )
}

const ABSENT: &str = "-:0:0:0:-:0";

/// The letter A, or the letter and a zero: its bits, and COUNT:UNITS:PADDED. Ten bits are the length's code.
fn letter(width: usize, padded: bool) -> (String, &'static str) {
    let rest = "0".repeat(width - 8);
    let zero = if padded { "0".repeat(width) } else { String::new() };
    let said = match (width, padded) {
        (8, false) => "1:41:0",
        (8, true) => "1:41:1",
        (_, false) => "1:0041:0",
        (_, true) => "1:0041:1",
    };
    (format!("01{:08b}01000001{rest}{zero}", 1 + u8::from(padded)), said)
}

/// A body with both names, or one before release 3: BL flag, six fields of 0, text; BD 0, 0, 0, 1, text; solid, not associative, four fields of 0.
/// Inline or by a reader whose end bit is where the strings end.
fn named(release: u32, flag: bool, gradient_padded: bool, padded: bool, by_reader: bool) -> (String, String) {
    let width = if by_reader || release >= 4 { 16 } else { 8 };
    let (mut body, mut strings) = (String::new(), String::new());
    let mut place = |body: &mut String, padded: bool| {
        let (bits, said) = letter(width, padded);
        let (source, to) = if by_reader { ('s', &mut strings) } else { ('m', body) };
        to.push_str(&bits);
        format!("{source}:{width}:{}:{said}", to.len() - (bits.len() - 10))
    };
    let mut gradient_name = ABSENT.to_string();
    if release >= 3 {
        body.push_str(if flag { "0100000001101010101010" } else { "10101010101010" });
        let name = place(&mut body, gradient_padded);
        gradient_name = if flag { name } else { gradient_name };
    }
    body.push_str("10101001");
    let name = place(&mut body, padded);
    body.push_str("1010101010");
    let places = format!("{} {}", body.len(), strings.len());
    let answer = read(&places, u8::from(release >= 3 && flag), &gradient_name, &name);
    if by_reader {
        let end = strings.len();
        return (format!("hatchs {release} 0 {} 0 {end} {}", hex(body), hex(strings)), answer);
    }
    (format!("hatch {release} 0 {}", hex(body)), answer)
}

/// A pattern name padded at each release, and a gradient name beside one that is not; a gradient whose flag is 0 says nothing of its name.
fn bodies() -> Vec<(String, String)> {
    let mut cases = Vec::new();
    for by_reader in [false, true] {
        for release in 1..=7 {
            cases.push(named(release, true, false, true, by_reader));
            if release >= 3 {
                cases.push(named(release, true, true, false, by_reader));
                cases.push(named(release, false, true, false, by_reader));
            }
        }
        cases.push(named(2, true, false, false, by_reader));
        cases.push(named(3, true, true, true, by_reader));
        cases.push(named(3, false, true, true, by_reader));
    }
    cases
}

pub fn all() -> Vec<(String, String)> {
    let inline = INLINE.iter().map(|(request, stated)| (request.to_string(), stated.to_string()));
    let by_reader = BY_READER.iter().map(|(strings, end, name)| {
        (format!("hatchs 2 0 A9AA80 {strings}"), read(&format!("18 {end}"), 0, ABSENT, name))
    });
    inline.chain(by_reader).chain(bodies()).collect()
}
