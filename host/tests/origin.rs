//! `--origin` of `read` and `draw`: coordinates counted from it, where it is told, what cannot be moved, and bad values.

mod calls;
mod drawings;
mod svg_text;

use calls::{answers, call, file, refuses, tool};
use drawings::{hatch_along, point, polyline, TRIANGLE};

const ROOT: &str = concat!(env!("CARGO_MANIFEST_DIR"), "/..");

/// Three hatches: one that can be moved, one of another plane, one with a coordinate above the bound.
fn three() -> String {
    let far = polyline(&[(2e12, 0.0), (2e12, 5.0), (0.0, 5.0)], None);
    let other = hatch_along([0.0, 0.6, 0.8], b"B", vec![], vec![point(4.0, 5.0)]);
    format!("{}{}{}", polyline(&[(1001.5, 2000.0), (1004.0, 2000.0), (1004.0, 2003.0)], None), other, far)
}

/// What is written and what is said, with the status.
fn said(words: &[&str], input: &[u8]) -> (Option<i32>, String, Vec<String>) {
    let output = call(words, input);
    let lines = String::from_utf8_lossy(&output.stderr).lines().map(str::to_string).collect();
    (output.status.code(), String::from_utf8(output.stdout).expect("UTF-8"), lines)
}

#[test]
fn a_summary_counts_from_the_origin() {
    let summary = answers(&["read", "--quiet", "--origin", "1000,2000.5"], polyline(&TRIANGLE, None).as_bytes());
    assert!(summary.contains("\n  origin    (1000.0, 2000.5), taken off each coordinate below\n"), "{summary}");
    assert!(summary.contains("3 points, x -1000.0 to -996.0, y -2000.5 to -1997.5\n"), "{summary}");
    assert!(!answers(&["read", "--quiet"], polyline(&TRIANGLE, None).as_bytes()).contains("origin"));
    let json = answers(&["read", "--quiet", "--json", "--origin=1000,2000.5"], polyline(&TRIANGLE, None).as_bytes());
    assert!(json.contains(",\"moved_origin\":[1000.0,2000.5],") && json.contains("\"vertices\":[[-1000.0,-2000.5],"), "{json}");
    assert!(!answers(&["read", "--quiet", "--json"], polyline(&TRIANGLE, None).as_bytes()).contains("moved_origin"));
}

/// What cannot be moved is refused by its line, and the others are read.
#[test]
fn what_cannot_be_moved_is_told_and_the_rest_is_read() {
    let (status, summary, lines) = said(&["read", "--quiet", "--origin", "1000,2000"], three().as_bytes());
    assert_eq!((status, lines.len()), (Some(1), 2), "{lines:?}");
    assert!(lines[0].starts_with("dwg-hatch: standard input:2: refusal 12: the hatch's extrusion is not (0, 0, 1), "), "{lines:?}");
    assert!(lines[1].starts_with("dwg-hatch: standard input:3: refusal 13: the origin or a coordinate to be moved is not a number "), "{lines:?}");
    assert!(summary.contains("x 1.5 to 4.0, y 0.0 to 3.0") && !summary.contains("input:2"), "{summary}");
    let (_, json, _) = said(&["read", "--quiet", "--json", "--origin", "1000,2000"], three().as_bytes());
    let refusals: Vec<&str> = json.lines().filter(|line| line.contains("\"refusal\"")).collect();
    assert!(refusals[0].contains("\"number\":12,") && refusals[1].contains("\"number\":13,") && refusals[1].contains("\"place\":0,"), "{json}");
    assert_eq!(said(&["read", "--quiet"], three().as_bytes()).0, Some(0));
}

#[test]
fn a_picture_counts_from_the_origin() {
    let view = ["draw", "--view", "0,0,8,8", "--width", "800", "--origin", "1000,2000"];
    let (status, svg, lines) = said(&view, three().as_bytes());
    assert_eq!((status, lines.len()), (Some(1), 2), "{lines:?}");
    assert!(lines[0].contains(":2: refusal 12: ") && lines[1].contains(":3: refusal 13: "), "{lines:?}");
    assert!(svg.contains("M150 800L400 800L400 500") && svg.contains(">counted from 1000, 2000</text>"), "{svg}");
    assert!(svg.contains("in double precision, moved first: coordinates are counted from the point (1000.0, 2000.0)."), "{svg}");
    svg_text::path_numbers(&svg_text::elements(&svg));
    let plain = answers(&["draw"], polyline(&TRIANGLE, None).as_bytes());
    assert!(!plain.contains("counted from"), "{plain}");
}

/// Narrowed behind the move, not before it.
#[test]
fn single_precision_comes_behind_the_move() {
    let input = polyline(&[(16_777_217.0, 0.0), (16_777_221.0, 0.0), (16_777_221.0, 3.0)], None);
    let svg = answers(&["draw", "--view", "0,0,8,8", "--width", "800", "--single", "--origin", "16777216,0"], input.as_bytes());
    assert!(svg.contains("M100 800L500 800L500 500") && svg.contains("in single precision, moved first"), "{svg}");
}

/// Near the middle of what can be moved, told on standard error, the same by both commands; with `--only` of that line alone.
#[test]
fn an_origin_is_found_near_the_middle() {
    let near = polyline(&[(4_650_210.5, -9_230_146.0), (4_650_220.5, -9_230_940.0), (4_650_990.0, -9_230_141.0)], None);
    let path = file("origin-auto.txt", format!("{}{near}{}", "# two hatches\n", three()).as_bytes());
    let name = path.to_str().expect("UTF-8");
    let wanted = format!("dwg-hatch: {name}: --origin auto is 2326000,-4614000");
    let (status, summary, lines) = said(&["read", "--quiet", "--origin", "auto", name], b"");
    assert_eq!((status, lines.len(), lines[0].as_str()), (Some(1), 3, wanted.as_str()));
    assert!(summary.contains("origin    (2326000.0, -4614000.0), ") && summary.contains(" x 2324210.5 to 2324990.0, y -4616940.0 to -4616141.0"), "{summary}");
    let (_, svg, lines) = said(&["draw", "--origin", "auto", name], b"");
    assert!(lines[0] == wanted && svg.contains(">counted from 2326000, -4614000</text>"), "{lines:?}");
    let (status, svg, lines) = said(&["draw", "--origin=auto", "--only=2", name], b"");
    assert_eq!((status, lines), (Some(0), vec![format!("dwg-hatch: {name}: --origin auto is 4651000,-9231000")]));
    assert!(svg.contains(">counted from 4651000, -9231000</text>"), "{svg}");
}

#[test]
fn an_origin_of_nothing_is_0() {
    for (name, text) in [("origin-none.txt", ""), ("origin-small.txt", "hatch 2 0 A9AAA0\n"), ("origin-bad.txt", "hatch 3 0 A9AAA0\nnothing\n")] {
        let path = file(name, text.as_bytes());
        let (_, _, lines) = said(&["read", "--quiet", "--origin", "auto", path.to_str().expect("UTF-8")], b"");
        assert!(lines[0].ends_with(": --origin auto is 0,0"), "{lines:?}");
    }
}

/// What is no file cannot be gone through twice, and a value that is no origin is told.
#[test]
fn bad_origins_are_told() {
    for command in ["read", "draw"] {
        let told = refuses(&call(&[command, "--origin", "auto"], b""), 2);
        assert!(told.contains("--origin auto goes through the input once more, and standard input cannot be read twice; name a file, or "), "{told}");
        for value in ["", "1", "1,2,3", "x,y", "nan,0", "0,inf", "1099511627777,0", "0,-1e13", "Auto", "1 2"] {
            let told = refuses(&call(&[command, "--origin", value], b""), 2);
            let wanted = format!("--origin is \"{value}\", which is neither X,Y, two numbers from -1099511627776 to 1099511627776, nor auto; ");
            assert!(told.contains(&wanted), "{told}");
        }
        assert!(refuses(&call(&[command, "--origin"], b""), 2).contains("--origin is given without its value"));
    }
    assert!(refuses(&call(&["prefix", "--origin", "0,0"], b""), 2).contains("prefix takes no \"--origin\""));
}

/// A whole drawing and a binary file are moved too.
#[test]
fn drawings_and_binary_files_are_moved() {
    let run = |words: &[&str]| {
        let output = tool().current_dir(ROOT).args(words).output().expect("the tool starts");
        assert!(output.status.success(), "{output:?}");
        (String::from_utf8(output.stdout).expect("UTF-8"), String::from_utf8(output.stderr).expect("UTF-8"))
    };
    let (summary, told) = run(&["read", "--quiet", "--origin", "auto", "samples/plan.dwg"]);
    assert!(told.starts_with("dwg-hatch: samples/plan.dwg: --origin auto is ") && summary.contains("  origin    ("), "{told}{summary}");
    let line = polyline(&TRIANGLE, None);
    let digits = line.split(' ').nth(3).expect("the payload").trim_end();
    let bytes: Vec<u8> = (0..digits.len()).step_by(2).map(|at| u8::from_str_radix(&digits[at..at + 2], 16).expect("digits")).collect();
    let body = file("origin-body.bin", &bytes);
    let (summary, _) = run(&["read", "--quiet", "--release=2", "--origin=4,3", body.to_str().expect("UTF-8")]);
    assert!(summary.contains("x -4.0 to 0.0, y -3.0 to 0.0"), "{summary}");
}
