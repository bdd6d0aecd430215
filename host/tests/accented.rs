//! Accented names as a person sees them: `--code-page` of `read` and `draw`, and what stays where it is not given.

mod calls;
mod drawings;
mod json_text;
mod svg_text;

use calls::{answers, call, file, refuses};
use drawings::layouts::{Fill, Numbers, Plan};
use drawings::{hatch, line, path, plan, TRIANGLE};
use dwg_hatch::Name;
use json_text::{parse, Value};

const PAGE: [&str; 2] = ["--code-page", "1252"];

/// A request line of release 2 with this name of the pattern as it is laid out, and a triangle.
fn named(name: &[u8]) -> String {
    hatch(name, vec![path(&TRIANGLE, None)], Vec::new())
}

/// One of release 3, whose gradient has a name of 8-bit units too.
fn with_gradient(gradient: &[u8], pattern: &[u8]) -> String {
    let names = [gradient, pattern].map(|name| Name::Bytes(name.to_vec()));
    let fill = Fill { doubles: [0; 3], colours: Vec::new() };
    line(&Plan { release: 3, names, gradient: true, fill, ..plan([0.0, 0.0, 1.0], b"", vec![path(&TRIANGLE, None)], Vec::new()) }, &mut Numbers(3), false)
}

/// One of release 5, whose name is 16-bit units of a string payload.
fn wide(name: &str) -> String {
    let names = ["", name].map(|name| Name::Characters(name.to_string()));
    line(&Plan { release: 5, names, ..plan([0.0, 0.0, 1.0], b"", Vec::new(), Vec::new()) }, &mut Numbers(5), true)
}

fn printed(words: &[&str], input: &str) -> String {
    answers(&[&["read", "--quiet"], words].concat(), input.as_bytes())
}

/// The lines of a summary that have names in them, up to what a name says of its place.
fn shown(words: &[&str], input: &str) -> Vec<String> {
    let text = printed(words, input);
    let lines = text.lines().filter(|line| line.starts_with("  pattern ") || line.starts_with("  gradient "));
    lines.filter_map(|line| line.split_once(" (")).map(|(name, _)| name.trim_start().to_string()).collect()
}

#[test]
fn a_summary_has_the_characters_of_the_page() {
    let input = [named(b"K\xfcche"), named(b"\x80 5"), named(b"NET"), wide("\u{3a9}"), with_gradient(b"D\xc9GRAD\xc9", b"\x8auma")].concat();
    let with = ["pattern   \"K\u{fc}che\"", "pattern   \"\u{20ac} 5\"", "pattern   \"NET\"", "pattern   \"\u{3a9}\""];
    assert_eq!(shown(&PAGE, &input), [&with[..], &["gradient  \"D\u{c9}GRAD\u{c9}\"", "pattern   \"\u{160}uma\""]].concat());
    let without = ["pattern   bytes [4b, fc, 63, 68, 65]", "pattern   bytes [80, 20, 35]", "pattern   \"NET\"", "pattern   \"\u{3a9}\""];
    let gradient = "gradient  bytes [44, c9, 47, 52, 41, 44, c9]";
    assert_eq!(shown(&[], &input), [&without[..], &[gradient, "pattern   bytes [8a, 75, 6d, 61]"]].concat());
    // What a name says of its place is its units', with a page and without.
    let kitchen = answers(&["read", "--code-page", "1252"], b"hatch 2 0 A94152FF18DA196AA0");
    assert!(kitchen.contains("\n  pattern   \"K\u{fc}che\" (5 units of 8 bits at bit 18); solid, "), "{kitchen}");
    let apart = |text: String| text.replace("\"K\u{fc}che\"", "NAME").replace("bytes [4b, fc, 63, 68, 65]", "NAME");
    let both = [&PAGE[..], &[]].map(|words| apart(printed(words, &named(b"K\xfcche"))));
    assert_eq!(both[0], both[1]);
}

/// A name with a byte that the page leaves undefined is shown as without a page.
#[test]
fn an_undefined_byte_shows_units() {
    for byte in [0x81, 0x8d, 0x8f, 0x90, 0x9d] {
        let input = with_gradient(&[byte], &[b'D', byte, 0xfc]);
        assert_eq!(shown(&PAGE, &input), [format!("gradient  bytes [{byte:02x}]"), format!("pattern   bytes [44, {byte:02x}, fc]")]);
        assert_eq!(printed(&PAGE, &input), printed(&[], &input));
        let object = parse(printed(&[&PAGE[..], &["--json"]].concat(), &input).trim_end());
        assert_eq!([object.at("gradient").at("name"), object.at("pattern_name")].map(|text| text.at("string") == &Value::Null), [true; 2]);
        assert_eq!(object.at("pattern_name").at("units").text(), format!("44{byte:02x}fc"));
    }
}

#[test]
fn json_has_the_characters_beside_the_units() {
    let object = |words: &[&str], input: &str| parse(printed(&[&["--json"], words].concat(), input).trim_end());
    let input = with_gradient(b"\x9cuvre", b"K\xfcche");
    let (with, without) = (object(&PAGE, &input), object(&[], &input));
    assert_eq!([with.at("gradient").at("name").at("string").text(), with.at("pattern_name").at("string").text()], ["\u{153}uvre", "K\u{fc}che"]);
    assert!(*without.at("gradient").at("name").at("string") == Value::Null && *without.at("pattern_name").at("string") == Value::Null);
    // The units are as they were read, and the page stands in the object.
    for text in [with.at("pattern_name"), without.at("pattern_name")] {
        assert_eq!((text.at("width").whole(), text.at("count").whole(), text.at("units").text()), (8, 5, "4bfc636865"));
    }
    assert!(with.at("code_page").whole() == 1252 && !without.has("code_page"));
    let alike = printed(&["--json", "--code-page", "1252"], &input).replace("\"code_page\":1252,", "");
    let alike = alike.replace("\"\u{153}uvre\"", "null").replace("\"K\u{fc}che\"", "null");
    assert_eq!(alike, printed(&["--json"], &input));
    let refused = call(&["read", "--json", "--code-page", "1252"], b"hatch 2 0 A9\n");
    assert_eq!(String::from_utf8_lossy(&refused.stdout), String::from_utf8_lossy(&call(&["read", "--json"], b"hatch 2 0 A9\n").stdout));
}

/// With the page two names are one if their characters are, whatever the bits of a unit; without it they are two.
#[test]
fn names_are_compared_by_characters() {
    let input = [named(b"K\xfcche"), wide("K\u{fc}che\0"), named(b"\x81\0"), named(b"\x81"), named(b"\x80\0"), named(b"\xac")].concat();
    let list = |words: &[&str]| {
        let text = printed(&[&["--names"], words].concat(), &input);
        let lines = text.lines().skip_while(|line| !line.starts_with("names that ")).skip(1);
        lines.map(str::to_string).collect::<Vec<String>>()
    };
    let undefined = "  pattern   bytes [81]: padded in 1 hatch, not padded in 1";
    assert_eq!(list(&PAGE), ["  pattern   \"K\u{fc}che\": padded in 1 hatch, not padded in 1", undefined]);
    assert_eq!(list(&[]), [undefined]);
    let last = |words: &[&str]| printed(&[&["--names", "--json"], words].concat(), &input).lines().last().expect("an object").to_string();
    let both = r#"{"padded_and_not":[{"kind":"pattern","string":"Küche","units":null,"padded":1,"not_padded":1},"#;
    assert!(last(&PAGE).starts_with(both) && last(&PAGE).contains(r#""string":null,"units":"81""#) && !last(&[]).contains("che"));
    // A gradient's names are compared so too.
    let gradients = [with_gradient(b"\xc9\0", b"A"), with_gradient(b"\xc9", b"B")].concat();
    let text = printed(&["--names", "--code-page", "1252"], &gradients);
    assert!(text.ends_with("\n  gradient  \"\u{c9}\": padded in 1 hatch, not padded in 1\n"), "{text}");
}

#[test]
fn a_picture_has_the_names_in_its_titles_and_in_the_hatches() {
    let input = [with_gradient(b"\xdcbergang", b"K\xfcche <1>"), named(b"D\x81N")].concat();
    let draw = |words: &[&str]| answers(&[&["draw"], words].concat(), input.as_bytes());
    let picture = draw(&PAGE);
    svg_text::elements(&picture);
    assert!(picture.contains("<title>standard input:1: K\u{fc}che &lt;1&gt;</title>"), "{picture}");
    assert!(picture.contains(">1: K\u{fc}che &lt;1&gt;, \u{dc}bergang</text>"), "{picture}");
    assert!(picture.contains("<title>standard input:2: D\\x81N</title>"), "{picture}");
    let without = draw(&[]);
    assert!(without.contains("<title>standard input:1: K\\xfcche &lt;1&gt;</title>") && without.contains("<title>standard input:2: D\\x81N</title>"));
}

#[test]
fn the_page_has_some_spellings_and_no_other_page_is_there() {
    let input = named(b"K\xfcche");
    for page in ["1252", "ANSI_1252", "ansi_1252", "cp1252", "CP1252", "windows-1252"] {
        assert_eq!(printed(&["--code-page", page], &input), printed(&PAGE, &input), "{page}");
        assert_eq!(printed(&[&format!("--code-page={page}")], &input), printed(&PAGE, &input), "{page}");
    }
    for (command, page) in [("read", "1251"), ("read", ""), ("draw", "latin1"), ("read", "30"), ("draw", "1252 ")] {
        let line = refuses(&call(&[command, "--code-page", page], input.as_bytes()), 2);
        let told = format!("--code-page is \"{page}\", which is none of the pages that there are: 1252; dwg-hatch {command} --help says more");
        assert_eq!(line, format!("dwg-hatch: {told}\n"));
    }
    refuses(&call(&["read", "--code-page", "1252", "--code-page", "1252"], b""), 2);
    assert!(refuses(&call(&["read", "--code-page"], b""), 2).contains("--code-page is given without its value"));
    for command in ["prefix", "cut", "answer"] {
        assert!(refuses(&call(&[command, "--code-page", "1252"], b""), 2).contains(&format!("{command} takes no \"--code-page\"")), "{command}");
    }
    assert!(["read", "draw"].iter().all(|command| answers(&[command, "--help"], b"").contains("\n  --code-page ")));
}

/// Binary files and whole drawings are read by the page too, and any number of jobs writes the same.
#[test]
fn every_input_is_read_by_the_page() {
    let body = file("accented.bin", &[0xa9, 0x41, 0x52, 0xff, 0x18, 0xda, 0x19, 0x6a, 0xa0]);
    let text = answers(&["read", "--release", "2", "--code-page", "1252", body.to_str().expect("UTF-8")], b"");
    assert!(text.contains("\n  pattern   \"K\u{fc}che\" (5 units of 8 bits at bit 18)"), "{text}");
    let drawing = concat!(env!("CARGO_MANIFEST_DIR"), "/../samples/plan.dwg");
    assert_eq!(answers(&["read", "--code-page", "1252", drawing], b""), answers(&["read", drawing], b""));
    let line = |at: usize| named(&[b'P', 0x80 + (at * at % 128) as u8, if at % 3 == 0 { 0 } else { b'x' }]);
    let many = file("accented-jobs.txt", (0..1000).map(line).collect::<String>().as_bytes());
    let by = |jobs: &str| printed(&["--names", "--code-page", "1252", "--jobs", jobs, many.to_str().expect("UTF-8")], "");
    let one = by("1");
    assert!(one.contains("\"P\u{20ac}\"") && ["2", "3", "16"].iter().all(|jobs| by(jobs) == one));
}
