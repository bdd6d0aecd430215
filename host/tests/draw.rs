//! `draw`: pictures of good input, and every kind of bad input.

mod calls;
mod drawings;
mod svg_text;

use std::process::Output;

use calls::{answers, call, file, refuses};
use drawings::layouts::{Numbers, Plan};
use drawings::{hatch, hatch_along, line, point, polyline, TRIANGLE};
use svg_text::{elements, path_numbers};

/// A picture, a line on standard error and the status. Gives both texts.
fn draws_and_says(output: &Output, status: i32) -> (String, String) {
    assert_eq!(output.status.code(), Some(status), "{output:?}");
    let said = String::from_utf8_lossy(&output.stderr).into_owned();
    assert!(said.starts_with("dwg-hatch: ") && said.lines().count() == 1, "{said}");
    let svg = String::from_utf8(output.stdout.clone()).expect("UTF-8");
    path_numbers(&elements(&svg));
    (svg, said)
}

#[test]
fn a_hatch_is_a_group_with_its_titles() {
    let svg = answers(&["draw"], format!("# one\n{}", polyline(&TRIANGLE, None)).as_bytes());
    let elements = elements(&svg);
    assert_eq!(elements.iter().filter(|tag| tag.starts_with("g color=")).count(), 1);
    assert!(svg.contains("<title>standard input:2: SOLID</title>") && svg.contains("<title>path 1: polyline, 3 points, flags 3</title>"), "{svg}");
    // 4 wide and 3 high with a margin of 0.2 is 4.4 by 3.4.
    assert!(elements[0].contains("width=\"1000\" height=\"773\" viewBox=\"0 0 1000 773\""), "{}", elements[0]);
    assert!(svg.contains("The point (-0.2, 3.2) of the drawing"), "{svg}");
    assert!(svg.contains("d=\"M45.45455 727.27273L954.54545 727.27273L954.54545 45.45455L45.45455 727.27273Z\""), "{svg}");
}

#[test]
fn views_and_widths_are_taken() {
    let input = polyline(&TRIANGLE, Some(1.0));
    let svg = answers(&["draw", "--view", "0,0,4,4", "--width=400"], input.as_bytes());
    assert!(elements(&svg)[0].contains("width=\"400\" height=\"400\""));
    // Half a circle below the lower side, counterclockwise.
    assert!(svg.contains("d=\"M0 400A200 200 0 0 0 400 400A"), "{svg}");
    let elsewhere = answers(&["draw", "--view", "100,100,4,4"], input.as_bytes());
    assert!(path_numbers(&elements(&elsewhere)).is_empty() && elsewhere.contains(">Nothing of the drawing lies in this view."), "{elsewhere}");
}

#[test]
fn single_precision_is_seen() {
    let input = polyline(&[(16_777_217.0, 0.0), (16_777_221.0, 0.0), (16_777_221.0, 3.0)], None);
    let words = ["draw", "--view", "16777216,0,8,8", "--width", "800"];
    let doubles = answers(&words, input.as_bytes());
    assert!(doubles.contains("M100 800L500 800L500 500") && doubles.contains("in double precision"), "{doubles}");
    let singles = answers(&[&words[..], &["--single"]].concat(), input.as_bytes());
    assert!(singles.contains("M0 800L400 800L400 500") && singles.contains("in single precision"), "{singles}");
}

/// Seen from above a hatch whose extrusion points down is mirrored; other planes are drawn as they are, and named.
#[test]
fn a_plane_seen_from_behind_is_mirrored() {
    let seed = |extrusion| answers(&["draw", "--view=-10,0,20,20", "--width=200"], hatch_along(extrusion, b"A", vec![], vec![point(4.0, 5.0)]).as_bytes());
    let (up, down, other) = (seed([0.0, 0.0, 1.0]), seed([0.0, 0.0, -1.0]), seed([0.0, 0.6, -0.8]));
    assert!(up.contains("d=\"M136 150L144 150M") && up.contains(": A</title>"), "{up}");
    assert!(down.contains("d=\"M56 150L64 150M") && down.contains(": A (mirrored, since its extrusion points down)</title>"), "{down}");
    assert!(other.contains("d=\"M136 150L144 150M") && other.contains(": A (in its own plane; its extrusion is 0.0, 0.6, -0.8)</title>"), "{other}");
}

#[test]
fn binary_files_are_drawn() {
    let lined = polyline(&TRIANGLE, None);
    let digits = lined.split(' ').nth(3).expect("the payload").trim_end();
    let bytes: Vec<u8> = (0..digits.len()).step_by(2).map(|at| u8::from_str_radix(&digits[at..at + 2], 16).expect("digits")).collect();
    let body = file("draw-body.bin", &bytes);
    let svg = answers(&["draw".as_ref(), "--release".as_ref(), "2".as_ref(), body.as_os_str()], b"");
    assert!(svg.contains("draw-body.bin: SOLID</title>"), "{svg}");
    let strings = file("draw-strings.bin", &[0x40, 0x50, 0x40, 0x00]);
    let body = file("draw-read.bin", &[0xa9, 0xaa, 0x40, 0x40].into_iter().chain([0; 16]).collect::<Vec<u8>>());
    let words = ["draw".as_ref(), "--release=2".as_ref(), "--strings".as_ref(), strings.as_os_str(), "--string-end=26".as_ref(), body.as_os_str()];
    assert!(answers(&words, b"").contains("draw-read.bin: A</title>"));
}

#[test]
fn nothing_to_draw_is_a_picture_that_says_so() {
    for input in ["", "# nothing\n", "prefix 2 0 85D08740\n", "hatch 2 0 A9AAA0\n"] {
        let svg = answers(&["draw"], input.as_bytes());
        elements(&svg);
        assert!(svg.contains(">Nothing to draw"), "{input}: {svg}");
    }
}

#[test]
fn names_of_any_letters_make_no_tags() {
    let seeds = || vec![point(1.0, 2.0)];
    let svg = answers(&["draw"], hatch(b"</title><script>&\"\x01\n]]>", Vec::new(), seeds()).as_bytes());
    elements(&svg);
    assert!(svg.contains(": &lt;/title&gt;&lt;script&gt;&amp;&quot;]]&gt;</title>"), "{svg}");
    let svg = answers(&["draw"], hatch(b"\xe9\xff", Vec::new(), seeds()).as_bytes());
    assert!(svg.contains(": \\xe9\\xff</title>"), "{svg}");
}

#[test]
fn bad_usage_is_one_line_and_status_2() {
    let bad: [&[&str]; 18] = [
        &["--nothing"],
        &["--json"],
        &["--width"],
        &["--width", "0"],
        &["--width", "100001"],
        &["--width", "-5"],
        &["--width", "1e3"],
        &["--view", "1,2,3"],
        &["--view", "1,2,0,4"],
        &["--view", "nan,2,3,4"],
        &["--view", "1,2,inf,4"],
        &["--only"],
        &["--max-lines", "many"],
        &["--single=yes"],
        &["--single", "--single"],
        &["--output"],
        &["--start", "3"],
        &["one", "two"],
    ];
    for words in bad {
        let said = refuses(&call(&[&["draw"], words].concat(), polyline(&TRIANGLE, None).as_bytes()), 2);
        assert!(said.contains("dwg-hatch draw --help"), "{words:?}: {said}");
    }
}

#[test]
fn files_that_cannot_be_read_are_one_line_and_status_1() {
    for name in ["no such file", "/", "no/such\nfolder"] {
        refuses(&call(&["draw", name], b""), 1);
        refuses(&call(&["draw", "--release", "2", name], b""), 1);
    }
    refuses(&call(&["draw", "--release", "2", "--strings", "no such file"], b"\xa9"), 1);
}

#[test]
fn what_is_refused_is_said_and_the_rest_is_drawn() {
    refuses(&call(&["draw"], b"hatch 3 0 C0\n"), 1);
    refuses(&call(&["draw"], b"hatch 2 0 A9A\n"), 2);
    refuses(&call(&["draw", "--release", "9"], b"\xa9"), 1);
    for (bad, status, says) in [("hatch 3 0 C0", 1, "refusal 2 at bit 2"), ("hatch 2 0 A9A", 2, "3 digits"), ("nothing", 2, "no request")] {
        let input = format!("{bad}\n{}", polyline(&TRIANGLE, None));
        let (svg, said) = draws_and_says(&call(&["draw"], input.as_bytes()), status);
        assert!(svg.contains("standard input:2: SOLID") && said.contains("standard input:1: ") && said.contains(says), "{said}");
    }
    let lent = format!("{} L 0 0\n", polyline(&TRIANGLE, None).trim_end());
    assert!(refuses(&call(&["draw"], lent.as_bytes()), 1).contains("refusal 11"));
}

#[test]
fn outlines_without_finite_numbers_are_left_out() {
    for bad in [f64::NAN, f64::INFINITY, f64::NEG_INFINITY, 1e16, -1.7e308] {
        let alone = polyline(&[(0.0, 0.0), (bad, 0.0), (0.0, 1.0)], None);
        assert!(refuses(&call(&["draw"], alone.as_bytes()), 1).contains("standard input:1: path 1 is left out"));
        let (svg, said) = draws_and_says(&call(&["draw"], format!("{}{alone}", polyline(&TRIANGLE, None)).as_bytes()), 1);
        assert!(said.contains("standard input:2: path 1 is left out"), "{said}");
        assert!(svg.contains("height=\"773\""), "the extents are those of the rest: {svg}");
        let seeds = hatch(b"", Vec::new(), vec![point(1.0, 1.0), point(0.0, bad)]);
        assert!(draws_and_says(&call(&["draw"], seeds.as_bytes()), 1).1.contains("seed point 2 is left out"));
        let bulged = polyline(&TRIANGLE, Some(bad));
        assert!(refuses(&call(&["draw"], bulged.as_bytes()), 1).contains("path 1"), "a bulge of {bad}");
    }
    let seeds = |count: usize| hatch(b"", Vec::new(), vec![point(f64::NAN, 0.0); count]);
    assert!(refuses(&call(&["draw"], seeds(2).as_bytes()), 1).contains("1: seed point 1, seed point 2 are left out, since a number of each is"));
    assert!(refuses(&call(&["draw"], seeds(12).as_bytes()), 1).contains("9, seed point 10 and 2 more are left out"));
    let large = polyline(&[(0.0, 0.0), (1e39, 0.0), (0.0, 1.0)], None);
    refuses(&call(&["draw", "--single"], large.as_bytes()), 1);
}

/// Bodies of all releases with any doubles: a picture that is well formed with finite numbers, or lines, and never a panic.
#[test]
fn bodies_of_any_doubles_end_in_a_picture_or_lines() {
    let mut n = Numbers(20);
    let mut drawn = 0;
    for round in 0..280 {
        let reader = n.coin();
        let plan = Plan::new(&mut n, 1 + round % 7, reader);
        let input = format!("{}{}", line(&plan, &mut n, reader), polyline(&TRIANGLE, None));
        for words in [&["draw"][..], &["draw", "--single"]] {
            let output = call(words, input.as_bytes());
            let said = String::from_utf8_lossy(&output.stderr);
            // A warning does not change the status; anything else is about the first line, and does.
            let (warnings, lines): (Vec<&str>, Vec<&str>) = said.lines().partition(|line| line.starts_with("dwg-hatch: warning: "));
            assert!(lines.iter().all(|line| line.starts_with("dwg-hatch: standard input:1: ")) && warnings.len() <= 2, "{said}");
            assert_eq!(output.status.code(), Some(i32::from(!lines.is_empty())), "{said}");
            let svg = String::from_utf8(output.stdout).expect("UTF-8");
            let more = path_numbers(&elements(&svg)).len() > 16;
            assert_eq!(more, svg.contains("(in its own plane; its extrusion is 0.0, 0.0, 0.0)</title>"), "{svg}");
            drawn += usize::from(more);
        }
    }
    assert!(drawn > 200, "{drawn} had more than the triangle");
}
