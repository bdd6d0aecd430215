//! Tests of pattern lines: known strokes of lines with and without dashes, near and far from the origin, and floods.

use std::f64::consts::{FRAC_PI_2, FRAC_PI_4};

use super::*;
use crate::commands::draw::runs::Run;
use crate::commands::draw::view::Extents;

fn point(x: f64, y: f64) -> Point2D {
    Point2D { x, y }
}

fn line(angle: f64, origin: (f64, f64), offset: (f64, f64), dashes: &[f64]) -> PatternLine {
    PatternLine { angle, origin: point(origin.0, origin.1), offset: point(offset.0, offset.1), dashes: dashes.to_vec() }
}

/// The strokes of lines in a square of 10 units at a corner, 10 pixels a unit, as whole pixels from the square's upper left corner.
fn in_square_at(corner: (f64, f64), lines: &[PatternLine], most: usize) -> Option<Vec<[[i64; 2]; 2]>> {
    let view = View::new(Extents::parse(&format!("{:?},{:?},10,10", corner.0, corner.1)).expect("a view"), 100);
    let mut area = Area::default();
    let corners = [(0.0, 0.0), (10.0, 0.0), (10.0, 10.0), (0.0, 10.0)].map(|(x, y)| point(corner.0 + x, corner.1 + y));
    area.add(&[Run::lines(corners).expect("points")], &view);
    let strokes = strokes(lines.iter(), false, &area, &view, most)?;
    Some(strokes.iter().map(|ends| ends.map(|end| [end.x.round() as i64, end.y.round() as i64])).collect())
}

fn in_square(lines: &[PatternLine]) -> Vec<[[i64; 2]; 2]> {
    in_square_at((0.0, 0.0), lines, 1000).expect("few strokes")
}

#[test]
fn lines_without_dashes_go_from_side_to_side() {
    // One above the other by 4 units, the first at y = 1.
    let mut given = in_square(&[line(0.0, (3.0, 1.0), (0.0, 4.0), &[])]);
    given.sort();
    assert_eq!(given, [[[0, 10], [100, 10]], [[0, 50], [100, 50]], [[0, 90], [100, 90]]]);
    let upright = in_square(&[line(FRAC_PI_2, (5.0, 0.0), (100.0, 0.0), &[])]);
    assert_eq!(upright, [[[50, 100], [50, 0]]]);
}

#[test]
fn a_line_at_45_degrees_rises_to_the_right() {
    // One line through the lower left and upper right corners; the next is 100 units away.
    let [[from, to]] = in_square(&[line(FRAC_PI_4, (0.5, 0.5), (-100.0, 100.0), &[])])[..] else { panic!("one stroke") };
    assert_eq!([from, to].map(|[x, y]| x + y), [100, 100]);
    assert_eq!((from[0] - to[0]).abs(), 100);
}

#[test]
fn dashes_start_at_the_origin_and_move_with_the_offset() {
    // 2 drawn, 1 left out, 0 as a dot, 2 left out: a period of 5 units from x = 1 on the line y = 2, and from x = 2 on the line y = 7.
    let mut given = in_square(&[line(0.0, (1.0, 2.0), (1.0, 5.0), &[2.0, -1.0, 0.0, -2.0])]);
    given.sort();
    let high = [[[20, 30], [40, 30]], [[50, 30], [50, 30]], [[70, 30], [90, 30]], [[100, 30], [100, 30]]];
    let low = [[[10, 80], [30, 80]], [[40, 80], [40, 80]], [[60, 80], [80, 80]], [[90, 80], [90, 80]]];
    let first = [[[0, 30], [0, 30]]];
    assert_eq!(given, { let mut wanted = [&first[..], &high, &low].concat(); wanted.sort(); wanted });
}

#[test]
fn far_from_the_origin_the_strokes_are_the_same() {
    let lines = |corner: (f64, f64)| [line(0.0, (corner.0 + 1.0, corner.1 + 2.0), (1.0, 5.0), &[2.0, -1.0])];
    let far = (4_650_000.0, 9_230_000.0);
    assert_eq!(in_square_at(far, &lines(far), 1000), in_square_at((0.0, 0.0), &lines((0.0, 0.0)), 1000));
    // The same family by an origin a million lines away.
    let away = line(0.0, (far.0 + 1.0 - 1_000_000.0, far.1 + 2.0 - 5_000_000.0), (1.0, 5.0), &[2.0, -1.0]);
    assert_eq!(in_square_at(far, &[away], 1000), in_square_at(far, &lines(far), 1000));
}

#[test]
fn families_that_are_no_families() {
    assert_eq!(in_square(&[line(0.0, (0.0, 5.0), (3.0, 0.0), &[])]).len(), 1, "the offset leads along the line");
    assert_eq!(in_square(&[line(FRAC_PI_4, (0.0, 0.0), (1.0, 1.0), &[])]).len(), 1, "the same with a rounded product");
    assert_eq!(in_square(&[line(0.0, (0.0, 5.0), (0.0, 0.0), &[])]).len(), 1, "no offset");
    assert!(in_square(&[line(0.0, (0.0, 5.0), (0.0, 1.0), &[-1.0, -2.0])]).is_empty(), "gaps alone");
    assert_eq!(in_square(&[line(0.0, (0.0, 5.0), (0.0, 100.0), &[0.01, -0.01])]), [[[0, 50], [100, 50]]], "gaps below a pixel");
    assert_eq!(in_square(&[line(0.0, (0.0, 5.0), (0.0, 100.0), &[0.0])]), [[[0, 50], [100, 50]]], "dots without gaps");
}

#[test]
fn floods_are_none() {
    let near = |step: f64, dashes: &[f64]| in_square_at((0.0, 0.0), &[line(0.0, (0.0, 0.0), (0.0, step), dashes)], 1000);
    assert_eq!(near(0.011, &[]).map(|strokes| strokes.len()), Some(910));
    for step in [0.009, 1e-9, 1e-300, -1e-6] {
        assert_eq!(near(step, &[]), None, "{step}");
    }
    assert_eq!(near(0.1, &[0.1, -0.05]), None, "by their dashes");
    // Families that are few each are many together.
    let families = vec![line(0.0, (0.0, 0.0), (0.0, 0.1), &[]); 11];
    assert!(in_square_at((0.0, 0.0), &families[..9], 1000).is_some() && in_square_at((0.0, 0.0), &families, 1000).is_none());
}

#[test]
fn numbers_that_cannot_be_drawn() {
    assert!(is_drawable(&line(0.0, (0.0, 0.0), (0.0, GREATEST), &[-GREATEST])));
    for bad in [f64::NAN, f64::INFINITY, 1.1 * GREATEST] {
        let lines = [line(bad, (0.0, 0.0), (0.0, 1.0), &[]), line(0.0, (0.0, bad), (0.0, 1.0), &[]), line(0.0, (0.0, 0.0), (bad, 1.0), &[])];
        assert!(lines.iter().chain(&[line(0.0, (0.0, 0.0), (0.0, 1.0), &[1.0, bad])]).all(|line| !is_drawable(line)), "{bad}");
    }
}
