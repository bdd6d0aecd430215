//! Padded names as a person sees them: in summaries and JSON, and the list that `read --names` ends with.

mod calls;
mod drawings;
mod json_text;

use calls::{answers, call, file, refuses};
use drawings::layouts::{Fill, Numbers, Plan};
use drawings::{hatch, line, plan};
use dwg_hatch::Name;
use json_text::{parse, Value};

/// The line that the list starts with.
const TITLE: &str = "names that stand both padded and not: ";

/// A request line of release 2, inline, with this name of the pattern as it is laid out.
fn named(name: &[u8]) -> String {
    hatch(name, Vec::new(), Vec::new())
}

/// One with a gradient, its names from a string reader.
fn with_gradient(gradient: &str, pattern: &str) -> String {
    let names = [gradient, pattern].map(|name| Name::Characters(name.to_string()));
    let fill = Fill { doubles: [0; 3], colours: Vec::new() };
    line(&Plan { release: 5, names, gradient: true, fill, ..plan([0.0, 0.0, 1.0], b"", Vec::new(), Vec::new()) }, &mut Numbers(3), true)
}

/// The list's lines, and that nothing else is behind it.
fn list(input: &str) -> Vec<String> {
    let printed = answers(&["read", "--quiet", "--names"], input.as_bytes());
    let plain = answers(&["read", "--quiet"], input.as_bytes());
    let list = printed.strip_prefix(plain.as_str()).expect("the list stands behind what is written without it");
    list.lines().map(str::to_string).collect()
}

#[test]
fn a_summary_says_that_a_name_is_padded() {
    let summary = |line: &str| answers(&["read", "--quiet"], line.as_bytes());
    let plain = summary("hatch 2 0 A940D391552AA0");
    assert!(plain.contains("\n  pattern   \"NET\" (3 units of 8 bits at bit 18); solid, "), "{plain}");
    let padded = summary("hatch 2 0 A941139155002AA0");
    assert!(padded.contains("\n  pattern   \"NET\" (3 units of 8 bits at bit 18, padded); solid, "), "{padded}");
    let zero = summary("hatch 2 0 A940402AA0");
    assert!(zero.contains("\n  pattern   \"\" (0 units of 8 bits at bit 18, padded); solid, "), "{zero}");
    let wide = summary("hatchs 2 0 A9AA80 0 42 409040000000");
    assert!(wide.contains("\n  pattern   \"A\" (1 unit of 16 bits at bit 10 of the string payload, padded); solid, "), "{wide}");
    let gradient = summary("hatch 3 0 406AA9024200A94090402AA0");
    assert!(gradient.contains("\n  gradient  \"B\" (1 unit of 8 bits at bit 32, padded); angle "), "{gradient}");
}

#[test]
fn json_says_that_a_name_is_padded() {
    let object = |line: &str| parse(answers(&["read", "--quiet", "--json"], line.as_bytes()).trim_end());
    let padded = answers(&["read", "--json"], b"hatch 2 0 A941139155002AA0");
    let text = r#""pattern_name":{"source":"main","width":8,"position":18,"count":3,"padded":true,"units":"4e4554","string":"NET"}"#;
    assert!(padded.contains(text), "{padded}");
    assert!(!object("hatch 2 0 A940D391552AA0").at("pattern_name").at("padded").bool());
    let both = object("hatch 3 0 406AA9024200A940506AA0");
    assert_eq!([both.at("gradient").at("name"), both.at("pattern_name")].map(|text| text.at("padded").bool()), [true, false]);
}

#[test]
fn names_that_stand_both_ways_are_listed() {
    assert_eq!(list(""), [format!("{TITLE}none")]);
    assert_eq!(list(&[named(b"NET\0"), named(b"ANSI31")].concat()), [format!("{TITLE}none")]);
    // A second closing zero makes another name, and so does a small letter.
    assert_eq!(list(&[named(b"NET"), named(b"NET\0\0"), named(b"net\0")].concat()), [format!("{TITLE}none")]);
    let input = [
        named(b"DUCT-INSUL"),
        with_gradient("LINEAR\0", "SOLID"),
        named(b"\xc9TAGE\0"),
        with_gradient("LINEAR", "DUCT-INSUL\0"),
        named(b"\0"),
        named(b"\xc9TAGE"),
        named(b"DUCT-INSUL\0"),
        named(b""),
    ];
    let wanted = [
        format!("{TITLE}4"),
        "  pattern   \"DUCT-INSUL\": padded in 2 hatches, not padded in 1".to_string(),
        "  pattern   bytes [c9, 54, 41, 47, 45]: padded in 1 hatch, not padded in 1".to_string(),
        "  pattern   \"\": padded in 1 hatch, not padded in 1".to_string(),
        "  gradient  \"LINEAR\": padded in 1 hatch, not padded in 1".to_string(),
    ];
    assert_eq!(list(&input.concat()), wanted);
    // The name of a pattern and of a gradient are two, though their characters are one name's.
    assert_eq!(list(&[with_gradient("NET", "A"), with_gradient("B", "NET\0")].concat()), [format!("{TITLE}none")]);
}

/// The list as JSON is the last object, and has the same names.
#[test]
fn the_list_is_an_object_too() {
    let input = [named(b"NET"), named(b"\xc9\0"), named(b"NET\0"), named(b"NET\0"), named(b"\xc9")].concat();
    let printed = answers(&["read", "--quiet", "--names", "--json"], input.as_bytes());
    assert_eq!(printed.lines().count(), 6);
    let last = parse(printed.lines().last().expect("an object"));
    let names: Vec<_> = last.at("padded_and_not").items().iter().map(|name| {
        let of = |field: &str| if *name.at(field) == Value::Null { "null".to_string() } else { name.at(field).text().to_string() };
        (of("kind"), of("string"), of("units"), name.at("padded").whole(), name.at("not_padded").whole())
    }).collect();
    let [pattern, net, null, units] = ["pattern", "NET", "null", "c9"].map(str::to_string);
    assert_eq!(names, [(pattern.clone(), net, null.clone(), 2, 1), (pattern, null, units, 1, 1)]);
    assert!(answers(&["read", "--names", "--json"], b"").ends_with("{\"padded_and_not\":[]}\n"));
}

/// A hatch that is refused, or cannot be moved, has no name that counts; a prefix and a line that is no request have none.
#[test]
fn what_is_refused_does_not_count() {
    let far = hatch(b"NET\0", Vec::new(), vec![drawings::point(2e12, 0.0)]);
    let input = [&far, &named(b"NET"), "prefix 2 0 85D08740\n", "nothing\n", "hatch 2 0 A9411391550020\n"].concat();
    let output = call(&["read", "--quiet", "--names", "--origin", "0,0"], input.as_bytes());
    let printed = String::from_utf8(output.stdout).expect("UTF-8");
    assert!(printed.ends_with(&format!("\n{TITLE}none\n")), "{printed}");
    assert_eq!(output.status.code(), Some(2));
    let output = call(&["read", "--quiet", "--names"], input.as_bytes());
    assert!(String::from_utf8(output.stdout).expect("UTF-8").ends_with("\n  pattern   \"NET\": padded in 1 hatch, not padded in 1\n"));
}

/// Many hatches and names, by some jobs: the list is the same, in the order of the names' first standing.
#[test]
fn any_number_of_jobs_lists_the_same() {
    let line = |at: usize| {
        let name = format!("P{}", at * at % 97);
        named(if at % 3 == 0 { name + "\0" } else { name }.as_bytes())
    };
    let path = file("names-jobs.txt", (0..2000).map(line).collect::<String>().as_bytes());
    for json in [&[][..], &["--json"]] {
        let by = |jobs: &str| answers(&[&["read", "--quiet", "--names", "--jobs", jobs], json, &[path.to_str().expect("UTF-8")]].concat(), b"");
        let one = by("1");
        assert!(["2", "3", "16"].iter().all(|jobs| by(jobs) == one), "{json:?}");
        let first: Vec<usize> = ["P0\"", "P1\"", "P4\"", "P9\""].iter().map(|name| one.rfind(&format!("\"{name}")).expect("a name")).collect();
        assert!(first.is_sorted(), "{json:?}");
    }
}

#[test]
fn names_is_a_switch_of_read_alone() {
    assert!(refuses(&call(&["prefix", "--names"], b""), 2).contains("prefix takes no \"--names\"; dwg-hatch prefix --help says more"));
    assert!(refuses(&call(&["draw", "--names"], b""), 2).contains("draw takes no \"--names\""));
    assert!(refuses(&call(&["read", "--names", "--names"], b""), 2).contains("--names is given twice"));
    assert!(refuses(&call(&["read", "--names=1"], b""), 2).contains("--names takes no value"));
    assert!(answers(&["read", "--help"], b"").contains("\n  --names "));
    // One body in a binary file has a list of its own too.
    let body = file("names-body.bin", &[0xa9, 0x40, 0x40, 0x2a, 0xa0]);
    assert!(answers(&["read", "--names", "--release", "2", body.to_str().expect("UTF-8")], b"").ends_with(&format!("{TITLE}none\n")));
}
