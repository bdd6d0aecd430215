//! Tests of areas and lengths: known shapes, near the origin and far from it, and paths that have none.

use std::f64::consts::{FRAC_PI_2, PI, TAU};

use dwg_hatch::Vertex;

use super::*;

const NEAR: (f64, f64) = (0.0, 0.0);
const FAR: (f64, f64) = (4_650_000.0, 9_230_000.0);

fn point(at: (f64, f64), (x, y): (f64, f64)) -> Point2D<u64> {
    Point2D { x: (at.0 + x).to_bits(), y: (at.1 + y).to_bits() }
}

fn path(segments: HatchPathSegments<u64>) -> HatchPath<u64> {
    HatchPath { flags: 1, segments, num_boundary_handles: 0 }
}

/// A polyline of points with bulges.
fn polyline(at: (f64, f64), corners: &[(f64, f64, f64)], is_closed: bool) -> HatchPath<u64> {
    let vertices = corners.iter().map(|(x, y, bulge)| Vertex { point: point(at, (*x, *y)), bulge: Some(bulge.to_bits()) }).collect();
    path(HatchPathSegments::Polyline { has_bulge: true, is_closed, vertices })
}

fn line(at: (f64, f64), start: (f64, f64), end: (f64, f64)) -> HatchEdge<u64> {
    HatchEdge::Line { start: point(at, start), end: point(at, end) }
}

fn arc(at: (f64, f64), center: (f64, f64), radius: f64, [start, end]: [f64; 2], counter_clockwise: bool) -> HatchEdge<u64> {
    let [radius, start_angle, end_angle] = [radius, start, end].map(f64::to_bits);
    HatchEdge::Arc { center: point(at, center), radius, start_angle, end_angle, counter_clockwise }
}

fn edges(edges: Vec<HatchEdge<u64>>) -> HatchPath<u64> {
    path(HatchPathSegments::Edges(edges))
}

fn near(path: &HatchPath<u64>, area: f64, length: f64) {
    let given = measures(path).expect("a closed path");
    assert!((given.area - area).abs() <= 1e-14 * area && (given.length - length).abs() <= 1e-14 * length, "{given:?} is not {area}, {length}");
}

#[test]
fn a_rectangle_is_the_same_near_and_far() {
    let sides = [(0.0, 0.0, 0.0), (6000.25, 0.0, 0.0), (6000.25, 4500.5, 0.0), (0.0, 4500.5, 0.0)];
    let wanted = Some(Measures { area: 6000.25 * 4500.5, length: 2.0 * (6000.25 + 4500.5) });
    assert_eq!([NEAR, FAR].map(|at| measures(&polyline(at, &sides, true))), [wanted; 2]);
    // Whichever way it runs.
    let back: Vec<_> = sides.iter().rev().copied().collect();
    assert_eq!(measures(&polyline(FAR, &back, true)), wanted);
}

#[test]
fn two_bulges_of_1_are_a_circle() {
    for at in [NEAR, FAR] {
        for bulge in [1.0, -1.0] {
            near(&polyline(at, &[(-3.0, 0.0, bulge), (3.0, 0.0, bulge)], true), 9.0 * PI, 6.0 * PI);
        }
    }
    // A half circle and its chord, outward and inward.
    near(&polyline(FAR, &[(0.0, 0.0, 0.0), (4.0, 0.0, 1.0)], true), 2.0 * PI, 4.0 + 2.0 * PI);
    let quarter = (PI / 8.0).tan();
    near(&polyline(NEAR, &[(0.0, 0.0, 0.0), (1.0, 0.0, quarter), (0.0, 1.0, 0.0)], true), PI / 4.0, 2.0 + FRAC_PI_2);
    near(&polyline(NEAR, &[(0.0, 0.0, 0.0), (1.0, 0.0, 0.0), (1.0, 1.0, -quarter), (0.0, 0.0, 0.0)], true), 1.0 - PI / 4.0, 2.0 + FRAC_PI_2);
}

/// Both forms agree where one takes over, and a small bulge's area is a third of it by the chord's square.
#[test]
fn small_bulges_lose_no_digits() {
    let closed = |b: f64| ((1.0 + b * b).powi(2) * b.atan() - b * (1.0 - b * b)) / (8.0 * b * b);
    for bulge in [0.25, -0.25, 0.2, 0.1] {
        assert!((beside(bulge) - closed(bulge)).abs() < 1e-14, "{bulge}");
    }
    for bulge in [1e-3, 1e-9, 1e-200] {
        assert!((beside(bulge) / (bulge / 3.0) - 1.0).abs() < 1e-6, "{bulge}");
    }
    assert_eq!((beside(0.0), stretch(0.0)), (0.0, 1.0));
}

#[test]
fn edges_of_lines_and_arcs_are_measured_if_they_close() {
    // A duct's elbow: a quarter of a ring. The inner arc runs back.
    let elbow = |at| {
        edges(vec![
            line(at, (1.5, 0.0), (4.0, 0.0)),
            arc(at, (0.0, 0.0), 4.0, [0.0, FRAC_PI_2], true),
            line(at, (0.0, 4.0), (0.0, 1.5)),
            arc(at, (0.0, 0.0), 1.5, [1.5 * PI, TAU], false),
        ])
    };
    for at in [NEAR, FAR] {
        near(&elbow(at), PI / 4.0 * (16.0 - 2.25), 5.0 + FRAC_PI_2 * 5.5);
    }
    near(&edges(vec![arc(FAR, (7.0, 7.0), 2.0, [0.0, TAU], true)]), 4.0 * PI, 4.0 * PI);
    // An edge that runs the other way round is taken from its end.
    let turned = edges(vec![line(NEAR, (0.0, 0.0), (3.0, 0.0)), line(NEAR, (3.0, 4.0), (3.0, 0.0)), line(NEAR, (3.0, 4.0), (0.0, 0.0))]);
    near(&turned, 6.0, 12.0);
    // Angles of single precision leave a gap that is no gap; a missing edge does.
    let single = |angle: f64| f64::from(angle as f32);
    let almost = edges(vec![arc(NEAR, (0.0, 0.0), 100.0, [0.0, single(PI)], true), line(NEAR, (-100.0, 0.0), (100.0, 0.0))]);
    assert!((measures(&almost).expect("closed").area - 5000.0 * PI).abs() < 1e-2);
    assert_eq!(measures(&edges(vec![line(NEAR, (0.0, 0.0), (3.0, 0.0)), line(NEAR, (3.0, 0.0), (3.0, 4.0))])), None);
}

#[test]
fn what_is_open_or_curved_otherwise_has_no_measures() {
    let corners = [(0.0, 0.0, 0.0), (3.0, 0.0, 0.0), (3.0, 4.0, 0.0)];
    assert_eq!(measures(&polyline(NEAR, &corners, false)), None);
    let back = [&corners[..], &[(0.0, 0.0, 7.0)]].concat();
    assert_eq!(measures(&polyline(FAR, &back, false)), Some(Measures { area: 6.0, length: 12.0 }));
    assert_eq!(measures(&polyline(NEAR, &[], true)), None);
    assert_eq!(measures(&edges(Vec::new())), None);
    let center = point(NEAR, (0.0, 0.0));
    let [axis_ratio, start_angle, end_angle] = [0.5, 0.0, TAU].map(f64::to_bits);
    let ellipse = HatchEdge::Ellipse { center, endpoint: point(NEAR, (2.0, 0.0)), axis_ratio, start_angle, end_angle, counter_clockwise: true };
    assert_eq!(measures(&edges(vec![ellipse])), None);
    for bad in [f64::NAN, f64::INFINITY, f64::NEG_INFINITY, 1e300] {
        assert_eq!(measures(&polyline(NEAR, &[(0.0, 0.0, 0.0), (bad, 1.0, 0.0), (0.0, bad, 0.0)], true)), None, "{bad}");
        assert_eq!(measures(&polyline(NEAR, &[(0.0, 0.0, bad), (3.0, 0.0, 0.0), (3.0, 4.0, 0.0)], true)), None, "a bulge of {bad}");
    }
}
