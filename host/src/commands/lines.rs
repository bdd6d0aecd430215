//! Lines of a file of requests: those that are passed over, and what is wrong with those that are no requests.

use crate::commands::failure::shown;
use crate::commands::written::counted;
use crate::protocol::payload::Payload;
use crate::protocol::request::number;

/// Whether a line is passed over: one with nothing but whitespace, or one that starts with `#`.
pub fn is_passed_over(line: &[u8]) -> bool {
    matches!(line.trim_ascii().first(), None | Some(b'#'))
}

/// Whether a line is text: UTF-8, without control characters that are no whitespace.
pub fn is_text(line: &[u8]) -> bool {
    // Nearly every line is plain ASCII, which is seen many bytes at once.
    let is_plain = line.iter().fold(true, |plain, byte| plain & matches!(byte, b' '..=b'~' | b'\t' | b'\n' | b'\r'));
    is_plain || std::str::from_utf8(line).is_ok_and(|text| !text.contains(|letter: char| letter.is_control() && !letter.is_ascii_whitespace()))
}

/// The same of a line's first part, whose last character may be cut.
pub fn is_text_so_far(part: &[u8]) -> bool {
    let whole = std::str::from_utf8(part).map_or_else(|error| error.valid_up_to(), str::len);
    part.len() - whole < 4 && is_text(&part[..whole])
}

/// The fields of a request, by their names in the protocol.
const HATCH: [&str; 3] = ["REL", "START", "HEX"];
const HATCHS: [&str; 6] = ["REL", "START", "HEX", "STRSTART", "STREND", "STRHEX"];
const LENT: [&str; 3] = ["L", "NWORDS", "NNUMBERS"];
const CODES: &str = "b bb 3b bs bsu bl blu bd bll rc rs rl rd handle tv dd";

/// What is wrong with a line that is no request for a hatch or a prefix, and what to do.
pub fn why_not(line: &[u8]) -> String {
    let words: Vec<&[u8]> = line.split(u8::is_ascii_whitespace).filter(|word| !word.is_empty()).collect();
    let [name, fields @ ..] = words.as_slice() else { return no_such_request(b"") };
    match *name {
        b"hatch" => wrong_field("hatch", &HATCH, fields, true),
        b"hatchs" => wrong_field("hatchs", &HATCHS, fields, true),
        b"prefix" => wrong_field("prefix", &HATCH, fields, false),
        name if CODES.split(' ').any(|code| code.as_bytes() == name) => {
            format!("{} is a single code, which dwg-hatch answer reads; here a line is hatch, hatchs or prefix", shown(name))
        }
        b"move" => "move is what dwg-hatch answer does; here a line is hatch, hatchs or prefix, and --origin X,Y moves what is read".to_string(),
        b"cp1252" | b"uncp1252" => {
            format!("{} is what dwg-hatch answer does; here a line is hatch, hatchs or prefix, and --code-page 1252 shows accented names", shown(name))
        }
        name => no_such_request(name),
    }
}

fn no_such_request(name: &[u8]) -> String {
    format!("there is no request \"{}\"; a line is hatch, hatchs or prefix, or starts with #", shown(name))
}

/// The first field that is wrong. A lent list's lengths may stand behind a hatch's fields.
fn wrong_field(request: &str, names: &[&str], fields: &[&[u8]], lent: bool) -> String {
    let lent_names = if lent && fields.len() > names.len() { &LENT[..] } else { &[] };
    let names: Vec<&str> = names.iter().chain(lent_names).copied().collect();
    if fields.len() != names.len() {
        return format!("{request} takes {}, and the line has {} after it", names.join(" "), counted(fields.len(), "field"));
    }
    let wrong = names.iter().zip(fields).find_map(|(name, field)| wrong_value(name, field));
    wrong.unwrap_or_else(|| format!("the line is no {request} request"))
}

fn wrong_value(name: &str, field: &[u8]) -> Option<String> {
    match name {
        "HEX" | "STRHEX" => Payload::parse(field).is_none().then(|| wrong_payload(name, field)),
        "L" => (field != b"L").then(|| format!("\"{}\" stands where L NWORDS NNUMBERS may stand", shown(field))),
        _ => number(field).is_none().then(|| format!("{name} is \"{}\", which is no decimal number from 0 to {}", shown(field), u64::MAX)),
    }
}

fn wrong_payload(name: &str, field: &[u8]) -> String {
    if let [b'z', count @ ..] = field {
        return format!("{name} is zN for N zero bytes, and N is \"{}\", which is no decimal number from 0 to {}", shown(count), u64::MAX);
    }
    if let Some(at) = field.iter().position(|byte| !byte.is_ascii_hexdigit()) {
        return format!("{name} has \"{}\" as its digit {}, which is no hexadecimal digit", shown(&field[at..=at]), at + 1);
    }
    format!("{name} has {}, and a byte has two: add or remove one", counted(field.len(), "digit"))
}

#[cfg(test)]
mod tests {
    use super::*;

    #[test]
    fn lines_that_are_passed_over() {
        assert!(is_passed_over(b" \r\n") && is_passed_over(b"  # a comment"));
        assert!(!is_passed_over(b"hatch 2 0 A9AAA0"));
    }

    #[test]
    fn lines_that_are_text() {
        assert!(is_text(b"hatch 2 0 A9\r\n") && !is_text(b"\x7fELF\x02\x01\x01\0") && !is_text(b"\xff\xfeh\0"));
        assert!(is_text("# \u{e9}\x0c".as_bytes()) && !is_text("# \u{85}".as_bytes()) && !is_text(b"# \x7f") && !is_text(b"# \x0b"));
    }

    #[test]
    fn what_is_wrong_is_said() {
        assert_eq!(why_not(b"hatch 2 0 A9A"), "HEX has 3 digits, and a byte has two: add or remove one");
        assert_eq!(why_not(b"hatch 2 x A9"), "START is \"x\", which is no decimal number from 0 to 18446744073709551615");
        assert_eq!(why_not(b"bs 2 0 3FFFC0"), "bs is a single code, which dwg-hatch answer reads; here a line is hatch, hatchs or prefix");
        assert!(why_not(b"move 0 0").ends_with("here a line is hatch, hatchs or prefix, and --origin X,Y moves what is read"));
        assert!(why_not(b"uncp1252 0041").starts_with("uncp1252 is what dwg-hatch answer does; "));
        assert!(why_not(b"cp1252 41").ends_with("here a line is hatch, hatchs or prefix, and --code-page 1252 shows accented names"));
    }
}
