//! Tests of polylines with bulges, circular arcs and elliptical arcs: points that are known, and which way they bend.

use std::f64::consts::{FRAC_PI_2, PI, TAU};

use crate::commands::draw::view::Extents;
use super::*;

fn point(x: f64, y: f64) -> Point2D {
    Point2D { x, y }
}

fn near(given: Point2D, x: f64, y: f64) {
    assert!((given.x - x).abs() < 1e-12 && (given.y - y).abs() < 1e-12, "{given:?} is not ({x}, {y})");
}

/// The arc of a segment from (0, 0) to (2, 0).
fn bulged(bulge: f64) -> Arc {
    match segment(point(0.0, 0.0), point(2.0, 0.0), bulge) {
        Step::Arc(arc, end) => {
            assert_eq!(end, point(2.0, 0.0));
            near(arc.at(arc.start), 0.0, 0.0);
            near(arc.at(arc.start + arc.sweep), 2.0, 0.0);
            arc
        }
        step => panic!("no arc: {step:?}"),
    }
}

#[test]
fn a_bulge_of_1_is_a_half_circle_on_the_right() {
    let arc = bulged(1.0);
    near(arc.center, 1.0, 0.0);
    assert_eq!((arc.radii(), arc.is_counter_clockwise()), ([1.0, 1.0], true));
    assert!((arc.sweep - PI).abs() < 1e-15);
    near(arc.at(arc.start + arc.sweep / 2.0), 1.0, -1.0);
    let arc = bulged(-1.0);
    assert!(!arc.is_counter_clockwise());
    near(arc.at(arc.start + arc.sweep / 2.0), 1.0, 1.0);
}

#[test]
fn a_quarter_circle_has_the_bulge_of_a_sixteenth_turn() {
    let arc = bulged((PI / 8.0).tan());
    near(arc.center, 1.0, 1.0);
    assert!((arc.radii()[0] - 2f64.sqrt()).abs() < 1e-12 && (arc.sweep - FRAC_PI_2).abs() < 1e-12);
    near(arc.at(arc.start + arc.sweep / 2.0), 1.0, 1.0 - 2f64.sqrt());
}

#[test]
fn a_bulge_above_1_is_more_than_half_a_circle() {
    let arc = bulged((3.0 * PI / 8.0).tan());
    near(arc.center, 1.0, -1.0);
    assert!((arc.sweep - 1.5 * PI).abs() < 1e-12);
}

/// The middle of a segment is off its chord by the bulge times half of the chord, on the right of the way.
#[test]
fn small_bulges_are_curves_with_the_same_middle() {
    for bulge in [0.0099, -0.0099, 1e-4, -1e-9] {
        let Step::Curve([first, second, end]) = segment(point(5.0, 1.0), point(5.0, 3.0), bulge) else { panic!("no curve") };
        assert_eq!(end, point(5.0, 3.0));
        near(point((5.0 + 3.0 * (first.x + second.x) + 5.0) / 8.0, (1.0 + 3.0 * (first.y + second.y) + 3.0) / 8.0), 5.0 + bulge, 2.0);
    }
}

/// Both forms of a segment whose bulge is just at the bound have the same tangents.
#[test]
fn curves_and_arcs_agree_at_the_bound() {
    let (from, to) = (point(0.0, 0.0), point(2.0, 0.0));
    let Step::Curve([first, second, _]) = segment(from, to, FLAT_BULGE * (1.0 - 1e-15)) else { panic!("no curve") };
    let Step::Arc(arc, _) = segment(from, to, FLAT_BULGE) else { panic!("no arc") };
    let Step::Curve([flat_first, flat_second, _]) = arc.flat(from, to) else { panic!("no curve") };
    near(first, flat_first.x, flat_first.y);
    near(second, flat_second.x, flat_second.y);
}

#[test]
fn a_bulge_of_0_is_a_line_and_coordinates_are_untouched() {
    let far = point(4_650_000.1, 5_230_000.7);
    assert_eq!(segment(point(0.0, 0.0), far, 0.0), Step::Line(far));
    assert_eq!(segment(point(0.0, 0.0), far, 0.5).end(), far);
}

#[test]
fn the_last_bulge_is_the_closing_segments() {
    let vertices = [(0.0, 0.0, 0.0), (2.0, 0.0, 0.0), (2.0, 2.0, 1.0)].map(|(x, y, bulge)| Vertex { point: point(x, y), bulge: Some(bulge) });
    let closed = polyline(&vertices, true).expect("a run");
    assert!(closed.is_closed && closed.steps.len() == 3);
    let Step::Arc(arc, end) = &closed.steps[2] else { panic!("no arc") };
    near(arc.center, 1.0, 1.0);
    assert_eq!(*end, point(0.0, 0.0));
    let open = polyline(&vertices, false).expect("a run");
    assert_eq!((open.is_closed, open.steps), (false, closed.steps[..2].to_vec()));
}

#[test]
fn a_counterclockwise_edge_runs_up_from_its_start_angle() {
    let run = Arc::of_edge(point(1.0, 1.0), point(2.0, 0.0), 1.0, [0.0, FRAC_PI_2], true).run();
    near(run.start, 3.0, 1.0);
    near(run.steps[0].end(), 1.0, 3.0);
}

/// The same quarter circle the other way round: its angles are measured clockwise, so from the top (-90 degrees, as 270) to the right (360).
#[test]
fn a_clockwise_edge_has_mirrored_angles() {
    let arc = Arc::of_edge(point(1.0, 1.0), point(2.0, 0.0), 1.0, [1.5 * PI, TAU], false);
    let run = arc.run();
    near(run.start, 1.0, 3.0);
    near(run.steps[0].end(), 3.0, 1.0);
    assert!(!arc.is_counter_clockwise());
}

#[test]
fn an_ellipse_is_turned_by_its_major_axis() {
    // The major axis points up, so the minor one points to the left.
    let arc = Arc::of_edge(point(10.0, 0.0), point(0.0, 4.0), 0.25, [0.0, FRAC_PI_2], true);
    near(arc.at(0.0), 10.0, 4.0);
    near(arc.at(FRAC_PI_2), 9.0, 0.0);
    assert_eq!(arc.radii(), [4.0, 1.0]);
    let mirrored = Arc { ratio: -0.25, ..arc };
    near(mirrored.at(FRAC_PI_2), 11.0, 0.0);
    assert!(arc.is_counter_clockwise() && !mirrored.is_counter_clockwise());
}

#[test]
fn extents_reach_where_an_arc_turns_back() {
    let extents = |arc: Arc| {
        let mut extents = Extents::default();
        arc.run().widen(&mut extents);
        (extents.least, extents.greatest)
    };
    let (least, greatest) = extents(Arc::of_edge(point(0.0, 0.0), point(2.0, 0.0), 1.0, [0.0, PI], true));
    near(least, -2.0, 0.0);
    near(greatest, 2.0, 2.0);
    let (least, greatest) = extents(Arc::of_edge(point(0.0, 0.0), point(2.0, 0.0), 1.0, [0.0, PI], false));
    near(least, -2.0, -2.0);
    near(greatest, 2.0, 0.0);
    let (least, greatest) = extents(Arc::of_edge(point(0.0, 0.0), point(3.0, 4.0), 0.5, [0.0, TAU], true));
    let (wide, high) = ((9.0f64 + 4.0).sqrt(), (16.0f64 + 2.25).sqrt());
    near(least, -wide, -high);
    near(greatest, wide, high);
}

#[test]
fn flat_arcs_are_curves() {
    let arc = Arc::of_edge(point(0.0, -1e6), point(1e6, 0.0), 1.0, [FRAC_PI_2 - 1e-5, FRAC_PI_2 + 1e-5], true);
    let run = arc.run();
    let Step::Curve([first, second, end]) = run.steps[0] else { panic!("no curve") };
    let middle = (run.start.y + 3.0 * (first.y + second.y) + end.y) / 8.0;
    assert!(run.start.x > 9.9 && end.x < -9.9 && middle.abs() < 1e-8, "{middle}");
}
