//! Whole drawings as a person hands them over: `cut`, and `read`, `prefix` and `draw` on the drawing itself; drawings of a CAD program where they are at
//! hand.

mod calls;
mod real;

use std::path::PathBuf;

use calls::{answers, call, file, refuses};

fn sample() -> String {
    let path = PathBuf::from(env!("CARGO_MANIFEST_DIR")).join("../samples/plan.dwg");
    path.to_str().expect("UTF-8").to_string()
}

/// What is read without what is said before the first word of its kind, which is where it was asked for.
fn without_origins(printed: &str) -> String {
    let origins = |line: &str| ["hatch, release", "prefix, release"].iter().find_map(|word| line.find(word)).unwrap_or(0);
    printed.lines().map(|line| format!("{}\n", &line[origins(line)..])).collect()
}

/// Each request line that is cut is read, and the drawing itself reads the same.
#[test]
fn what_is_cut_reads_as_the_drawing_does() {
    let sample = sample();
    for (command, word, line, count) in [("read", "--", "hatch ", 3), ("prefix", "--prefixes", "prefix ", 6)] {
        let cut = answers(&["cut", word, &sample], b"");
        let lines: String = cut.lines().filter(|text| text.starts_with(line)).map(|line| format!("{line}\n")).collect();
        let read = without_origins(&answers(&[command], lines.as_bytes()));
        assert_eq!(read.matches(", release 2 (R2000), bits ").count(), count);
        assert_eq!(read, without_origins(&answers(&[command, &sample], b"")));
    }
}

/// The comment before each hatch has its handle and says where its fields end, which is where the body is read to.
#[test]
fn a_body_ends_where_the_drawing_says() {
    let sample = sample();
    let cut = answers(&["cut", &sample], b"");
    let read = answers(&["read", &sample], b"");
    let mut compared = 0;
    for comment in cut.lines().filter_map(|line| line.strip_prefix("# handle ")) {
        let (handle, rest) = comment.split_once(':').expect("a handle");
        let end = rest.rsplit(' ').next().expect("a bit");
        let title = read.lines().find(|line| line.contains(&format!("plan.dwg: handle {handle}: hatch, "))).expect("the hatch");
        assert!(title.contains(&format!(" to {end}")), "{title}\n{comment}");
        compared += 1;
    }
    assert_eq!(compared, 3);
}

#[test]
fn standard_input_may_be_a_drawing() {
    let (sample, bytes) = (sample(), std::fs::read(sample()).expect("the sample"));
    for words in [&["read"][..], &["read", "--json"], &["prefix"], &["draw"], &["cut"], &["cut", "--prefixes"]] {
        let named = answers(&[words, &[&sample]].concat(), b"");
        assert_eq!(answers(words, &bytes), named.replace(&sample, "standard input"), "{words:?}");
    }
    assert!(answers(&["read", "--json"], &bytes).starts_with("{\"origin\":\"standard input: handle 2A\",\"request\":\"hatch\","));
    assert!(answers(&["draw"], &bytes).contains("standard input: handle 2B: SOLID"));
}

#[test]
fn drawings_of_other_releases_are_told_apart() {
    let named = [("AC1014", "R14"), ("AC1018", "R2004"), ("AC1021", "R2007"), ("AC1024", "R2010"), ("AC1027", "R2013"), ("AC1032", "R2018")];
    for (letters, name) in named.into_iter().chain([("AC1009", "AC1009"), ("AC1099", "AC1099")]) {
        let path = file(&format!("{letters}.dwg"), format!("{letters}\0\0\0\0\0\x01\n").as_bytes());
        let path = path.to_str().expect("UTF-8");
        let said = format!(
            "dwg-hatch: {path}: this is a whole drawing of {name}; dwg-hatch reads the hatch bodies and entity prefixes in it, which your DWG reader cuts out \
            (docs/PAYLOADS.md says where they lie)\n"
        );
        for words in [&["read"][..], &["read", "--json"], &["prefix"], &["draw"], &["cut"], &["read", "--release", "2"], &["prefix", "--release=2"]] {
            assert_eq!(refuses(&call(&[words, &[path]].concat(), b""), 2), said, "{words:?}");
        }
        assert_eq!(refuses(&call(&["read"], letters.as_bytes()), 2), said.replace(path, "standard input"));
    }
}

#[test]
fn a_drawing_is_no_payload_and_lines_are_no_drawing() {
    let sample = sample();
    for words in [&["read", "--release", "2"][..], &["draw", "--release=R2000", "--start=8"], &["prefix", "--release", "2"], &["cut", "--release", "2"]] {
        let line = refuses(&call(&[words, &[&sample]].concat(), b""), 2);
        assert!(line.contains("a whole drawing") && line.contains("leave --release out"), "{line}");
    }
    let line = refuses(&call(&["cut"], b"hatch 2 0 A9AAA0\n"), 2);
    assert!(line.starts_with("dwg-hatch: standard input is no whole drawing, which begins with AC10 and two digits; "), "{line}");
    refuses(&call(&["cut"], b""), 2);
    refuses(&call(&["cut", "no such file"], b""), 1);
    refuses(&call(&["cut", "--prefix", &sample], b""), 2);
}

/// A drawing is never written over.
#[test]
fn a_drawing_is_not_the_output() {
    let bytes = std::fs::read(sample()).expect("the sample");
    let path = file("own.dwg", &bytes);
    let path = path.to_str().expect("UTF-8");
    refuses(&call(&["draw", "--output", path, path], b""), 2);
    assert!(std::fs::read(path).expect("the drawing") == bytes);
}

/// A damaged drawing: what is whole in it is read, what is not is told, and the status is 1.
#[test]
fn what_is_whole_in_a_damaged_drawing_is_read() {
    let mut bytes = std::fs::read(sample()).expect("the sample");
    // The last object's first byte is its length's; handle 2C lies first in the file.
    bytes[52] = 0;
    let output = call(&["read"], &bytes);
    let errors = String::from_utf8_lossy(&output.stderr);
    assert_eq!((output.status.code(), errors.lines().count()), (Some(1), 1), "{errors}");
    assert!(errors.starts_with("dwg-hatch: standard input: handle 2C: its "), "{errors}");
    assert_eq!(String::from_utf8_lossy(&output.stdout).matches(": hatch, release 2 (R2000)").count(), 2);
}
