//! Tests of path data: known arcs with their flags, areas, numbers and titles.

use std::f64::consts::{FRAC_PI_2, PI, TAU};

use dwg_hatch::Vertex;

use super::*;
use crate::commands::draw::arcs;
use crate::commands::draw::view::Extents;

fn point(x: f64, y: f64) -> Point2D {
    Point2D { x, y }
}

/// Ten units wide and high, ten pixels each: (0, 0) lies at 0 100, (10, 10) at 100 0.
fn view() -> View {
    View::new(Extents::parse("0,0,10,10").expect("a view"), 100)
}

fn line(run: &Run) -> String {
    Pen { view: &view() }.line(run)
}

fn polyline(vertices: &[(f64, f64, f64)], is_closed: bool) -> Run {
    let vertices: Vec<Vertex> = vertices.iter().map(|(x, y, bulge)| Vertex { point: point(*x, *y), bulge: Some(*bulge) }).collect();
    arcs::polyline(&vertices, is_closed).expect("a run")
}

fn arc(radius: f64, angles: [f64; 2], counter_clockwise: bool) -> String {
    line(&Arc::of_edge(point(5.0, 5.0), point(radius, 0.0), 1.0, angles, counter_clockwise).run())
}

/// From (2, 5) to (8, 5) counterclockwise is below the chord, clockwise above it. SVG's sweep flag 0 is counterclockwise on the screen.
#[test]
fn half_circles_of_bulges() {
    assert_eq!(line(&polyline(&[(2.0, 5.0, 1.0), (8.0, 5.0, 0.0)], false)), "M20 50A30 30 0 0 0 80 50");
    assert_eq!(line(&polyline(&[(2.0, 5.0, -1.0), (8.0, 5.0, 0.0)], false)), "M20 50A30 30 0 0 1 80 50");
}

#[test]
fn a_bulge_of_three_quarters_of_a_circle_is_a_large_arc() {
    let bulge = (1.499 * PI / 4.0).tan();
    assert!(line(&polyline(&[(2.0, 5.0, bulge), (8.0, 5.0, 0.0)], false)).contains(" 0 1 0 80 50"));
    assert!(line(&polyline(&[(2.0, 5.0, -bulge), (8.0, 5.0, 0.0)], false)).contains(" 0 1 1 80 50"));
}

#[test]
fn quarter_arcs_of_edges() {
    assert_eq!(arc(2.0, [0.0, FRAC_PI_2], true), "M70 50A20 20 0 0 0 50 30");
    // The same points on the circle's lower half: clockwise angles are mirrored.
    assert_eq!(arc(2.0, [0.0, FRAC_PI_2], false), "M70 50A20 20 0 0 1 50 70");
    assert_eq!(arc(2.0, [FRAC_PI_2, 0.0], true), "M50 30A20 20 0 1 0 70 50");
}

#[test]
fn a_whole_circle_is_two_halves() {
    assert_eq!(arc(2.0, [0.0, TAU], true), "M70 50A20 20 0 0 0 30 50A20 20 0 0 0 70 50Z");
    assert_eq!(arc(2.0, [0.0, TAU], false), "M70 50A20 20 0 0 1 30 50A20 20 0 0 1 70 50Z");
}

/// The major axis leans by 45 degrees counterclockwise, which is -45 where y runs down.
#[test]
fn an_ellipse_leans_the_other_way_in_the_pictures_numbers() {
    let run = Arc::of_edge(point(5.0, 5.0), point(2.0, 2.0), 0.5, [0.0, PI], true).run();
    assert_eq!(line(&run), "M70 30A28.28427 14.14214 -45 0 0 30 70");
}

#[test]
fn curves_and_closed_lines() {
    let run = Run { start: point(1.0, 1.0), steps: vec![Step::Curve([point(2.0, 1.0), point(3.0, 2.0), point(3.0, 3.0)])], is_closed: false, instead: None };
    assert_eq!(line(&run), "M10 90C20 90 30 80 30 70");
    assert_eq!(line(&polyline(&[(1.0, 1.0, 0.0), (2.0, 1.0, 0.0), (2.0, 2.0, 0.0)], true)), "M10 90L20 90L20 80L10 90Z");
}

/// Edges that meet are one area without lines between them; a gap is bridged in the area alone.
#[test]
fn an_area_joins_its_runs() {
    let runs: Vec<Run> = [[(1.0, 1.0), (2.0, 1.0)], [(2.0, 1.0), (2.0, 2.0)], [(1.0, 3.0), (1.0, 1.0)]]
        .into_iter()
        .map(|ends| Run::lines(ends.map(|(x, y)| point(x, y))).expect("a run"))
        .collect();
    let pen = Pen { view: &view() };
    assert_eq!(pen.area(&runs), "M10 90L20 90L20 80L10 70L10 90Z");
    assert_eq!(runs.iter().map(|run| pen.line(run)).collect::<String>(), "M10 90L20 90M20 90L20 80M10 70L10 90");
}

#[test]
fn numbers_are_short_and_finite() {
    assert_eq!([0.0, -0.0, -0.000001, 0.1 + 0.2, 100.0, -2.5, 1e15].map(number), ["0", "0", "0", "0.3", "100", "-2.5", "1000000000000000"]);
}

#[test]
fn titles_are_escaped() {
    assert_eq!(escaped("a<b> & \"c\"\u{0}\u{1b}\n\u{ffff}\u{85}\u{e9}\u{1f600}"), "a&lt;b&gt; &amp; &quot;c&quot;\u{e9}\u{1f600}");
}
