//! `draw` of a part: by a view, by a request line; hatches that lie far apart; and input that can be read once alone.

mod calls;
mod drawings;
mod svg_text;

use std::process::Stdio;

use calls::{answers, call, file, refuses, tool};
use drawings::{hatch, point, polyline, TRIANGLE};
use svg_text::elements;

fn square(x: f64, y: f64) -> String {
    polyline(&[(x, y), (x + 1.0, y), (x + 1.0, y + 1.0), (x, y + 1.0)], None)
}

#[test]
fn what_is_out_of_view_is_not_written() {
    let seeds = format!("{}{}", hatch(b"NEAR", Vec::new(), vec![point(5.0, 5.0)]), hatch(b"FAR", Vec::new(), vec![point(50.0, 5.0)]));
    let svg = answers(&["draw", "--view", "0,0,10,10", "--width", "100"], seeds.as_bytes());
    assert!(svg.contains(": NEAR</title>") && !svg.contains(": FAR</title>"), "{svg}");
    assert!(svg.contains("d=\"M46 50L54 50M50 46L50 54\""), "{svg}");
}

#[test]
fn only_draws_the_hatch_of_one_line() {
    let lines = format!("# a comment\nnothing\n{}hatch 3 0 C0\n{}prefix 2 0 85D08740\n", square(0.0, 0.0), polyline(&TRIANGLE, None));
    let one = answers(&["draw", "--only", "3"], lines.as_bytes());
    assert!(one.contains(":3: SOLID</title>") && !one.contains(":5: SOLID"), "{one}");
    assert!(elements(&one)[0].contains("width=\"1000\" height=\"1000\""), "its own extents are the view's");
    assert!(answers(&["draw", "--only=5"], lines.as_bytes()).contains(":5: SOLID</title>"));
    assert!(refuses(&call(&["draw", "--only", "4"], lines.as_bytes()), 1).contains("standard input:4: refusal 2"));
    assert!(refuses(&call(&["draw", "--only", "2"], lines.as_bytes()), 2).contains("standard input:2: there is no request"));
    for none in ["1", "6", "7", "18446744073709551615"] {
        let said = refuses(&call(&["draw", "--only", none], lines.as_bytes()), 2);
        assert!(said.contains(&format!("standard input has no hatch on line {none}")), "{said}");
    }
    for bad in ["0", "-1", "x", "1-3", ""] {
        assert!(refuses(&call(&["draw", "--only", bad], lines.as_bytes()), 2).contains("dwg-hatch draw --help"));
    }
    assert!(refuses(&call(&["draw", "--only", "1", "--release", "2"], b"\xa9"), 2).contains("binary file has none"));
}

#[test]
fn hatches_that_are_dots_are_said_with_a_way_to_look_at_each() {
    let apart = format!("# far apart\n{}{}", square(4_650_000.0, 9_230_000.0), square(4_750_000.0, 9_250_000.0));
    let output = call(&["draw"], apart.as_bytes());
    let said = String::from_utf8(output.stderr).expect("UTF-8");
    assert!(output.status.success() && said.lines().count() == 1, "{said}");
    assert!(said.starts_with("dwg-hatch: warning: 2 of 2 hatches are smaller than 3 pixels here, since they lie far apart"), "{said}");
    let view = said.trim_end().rsplit(' ').next().expect("a view").to_string();
    assert!(said.contains("the first is that of line 2, --only 2 or --view 46499"), "{said}");
    // What it says is what shows the hatch.
    for words in [["draw", "--only", "2"], ["draw", "--view", &view]] {
        let svg = answers(&words, apart.as_bytes());
        assert!(svg.contains(":2: SOLID</title>") && svg.contains(">2: SOLID</text>"), "{svg}");
    }
    // Neighbours, and one hatch alone, are no dots.
    answers(&["draw"], format!("{}{}", square(0.0, 0.0), square(2.0, 0.0)).as_bytes());
    answers(&["draw"], hatch(b"", Vec::new(), vec![point(1.0, 1.0)]).as_bytes());
}

/// A pipe is read once and a file twice, and both give one picture but for the name.
#[test]
fn a_pipe_and_a_file_give_the_same_picture() {
    let lines: String = (0..40).map(|at| square(f64::from(at % 7) * 1.5, f64::from(at / 7) * 1.5)).collect();
    let input = file("draw-twice.txt", lines.as_bytes());
    for view in ["--view=2,2,4,4", "--width=500"] {
        let piped = answers(&["draw", view], lines.as_bytes());
        let named = tool().args(["draw", view]).arg(&input).output().expect("the tool starts");
        let named = String::from_utf8(named.stdout).expect("UTF-8").replace(&input.to_string_lossy().into_owned(), "standard input");
        assert!(piped == named && piped.matches("<g color").count() > 8, "{view}");
        let redirected = tool().args(["draw", view]).stdin(Stdio::from(std::fs::File::open(&input).expect("a file"))).output().expect("the tool starts");
        assert!(String::from_utf8(redirected.stdout).expect("UTF-8") == piped, "{view}");
    }
}
