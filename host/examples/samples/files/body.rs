//! A hatch as a request line. Fields are laid out by tests/layouts, in codes that are picked by a generator of numbers and so are the same in
//! every run.

use dwg_hatch::{ControlPoint, Fits, HatchEdge, HatchPath, HatchPathSegments, Name, PatternLine, Point2D, Vertex};

use super::layouts::{Bits, Fill, Numbers, Plan};

pub const FULL: f64 = std::f64::consts::TAU;

/// A point as the lists have it: the 64 bits of each coordinate.
pub fn point((x, y): (f64, f64)) -> Point2D<u64> {
    Point2D { x: x.to_bits(), y: y.to_bits() }
}

/// A hatch of a release with one name for its pattern, and no more.
pub fn plan(release: u64, name: &str, paths: Vec<HatchPath<u64>>) -> Plan {
    let plane = [0.0, 0.0, 0.0, 1.0].map(f64::to_bits);
    let fill = Fill { doubles: [0; 3], colours: Vec::new() };
    let names = if release >= 4 { [String::new(), name.to_string()].map(Name::Characters) } else { ["", name].map(|name| Name::Bytes(name.into())) };
    Plan { release, names, gradient: false, fill, plane, style: 0, solid: true, paths, lines: Vec::new(), seeds: Vec::new() }
}

/// With pattern lines at 45 degrees instead of a solid fill.
pub fn lined(plan: Plan, distance: f64) -> Plan {
    let step = distance * 0.5f64.sqrt();
    let line = PatternLine { angle: std::f64::consts::FRAC_PI_4.to_bits(), origin: point((0.0, 0.0)), offset: point((-step, step)), dashes: Vec::new() };
    Plan { solid: false, lines: vec![line], ..plan }
}

/// A closed polyline; each point has its bulge behind it.
pub fn bulged(flags: u32, vertices: &[(f64, f64, f64)]) -> HatchPath<u64> {
    let vertices = vertices.iter().map(|(x, y, bulge)| Vertex { point: point((*x, *y)), bulge: Some(bulge.to_bits()) }).collect();
    HatchPath { flags, segments: HatchPathSegments::Polyline { has_bulge: true, is_closed: true, vertices }, num_boundary_handles: 0 }
}

/// A closed polyline without bulges.
pub fn straight(flags: u32, points: &[(f64, f64)]) -> HatchPath<u64> {
    let vertices = points.iter().map(|at| Vertex { point: point(*at), bulge: None }).collect();
    HatchPath { flags, segments: HatchPathSegments::Polyline { has_bulge: false, is_closed: true, vertices }, num_boundary_handles: 0 }
}

pub fn edges(flags: u32, edges: Vec<HatchEdge<u64>>) -> HatchPath<u64> {
    HatchPath { flags, segments: HatchPathSegments::Edges(edges), num_boundary_handles: 0 }
}

pub fn line(start: (f64, f64), end: (f64, f64)) -> HatchEdge<u64> {
    HatchEdge::Line { start: point(start), end: point(end) }
}

/// A circular arc. Of a clockwise one the angles are measured clockwise.
pub fn arc(center: (f64, f64), radius: f64, angles: (f64, f64), counter_clockwise: bool) -> HatchEdge<u64> {
    let [radius, start_angle, end_angle] = [radius, angles.0, angles.1].map(f64::to_bits);
    HatchEdge::Arc { center: point(center), radius, start_angle, end_angle, counter_clockwise }
}

/// An elliptical arc. `endpoint` is the major axis's end, seen from the centre.
pub fn ellipse(center: (f64, f64), endpoint: (f64, f64), ratio: f64, angles: (f64, f64), counter_clockwise: bool) -> HatchEdge<u64> {
    let [axis_ratio, start_angle, end_angle] = [ratio, angles.0, angles.1].map(f64::to_bits);
    HatchEdge::Ellipse { center: point(center), endpoint: point(endpoint), axis_ratio, start_angle, end_angle, counter_clockwise }
}

/// A spline by its degree, knots and control points, with weights if it is rational.
pub fn spline(degree: u32, knots: &[f64], points: &[(f64, f64)], weights: Option<&[f64]>) -> HatchEdge<u64> {
    let weight = |at: usize| weights.map(|weights| weights[at].to_bits());
    let control_points = points.iter().enumerate().map(|(at, xy)| ControlPoint { point: point(*xy), weight: weight(at) }).collect();
    let knots = knots.iter().map(|knot| knot.to_bits()).collect();
    HatchEdge::Spline { degree, is_rational: weights.is_some(), is_periodic: false, knots, control_points, fits: None }
}

/// A spline with fit points alone, from release 5 on.
pub fn fitted(points: &[(f64, f64)]) -> HatchEdge<u64> {
    let fits = Fits { fit_points: points.iter().copied().map(point).collect(), start_tangent: point((1.0, 0.0)), end_tangent: point((1.0, 0.0)) };
    HatchEdge::Spline { degree: 3, is_rational: false, is_periodic: false, knots: vec![], control_points: vec![], fits: Some(fits) }
}

/// The request line of a hatch, behind its bits in front if there are any. With a reader its names are in a string payload.
pub fn request(plan: &Plan, front: Bits, reader: bool, codes: u64) -> String {
    let start = front.0.len();
    let [main, strings] = plan.lay_out(&mut Numbers(codes), reader);
    let main = Bits([front.0, main.0].concat());
    let line = format!("{} {start} {}", plan.release, hex(&main));
    if reader { format!("hatchs {line} 0 {} {}\n", strings.0.len(), hex(&strings)) } else { format!("hatch {line}\n") }
}

/// The request line of a hatch whose names are inline.
pub fn hatch(plan: &Plan, codes: u64) -> String {
    request(plan, Bits(Vec::new()), false, codes)
}

/// The bytes in hexadecimal, with zero bits up to the last byte's end.
pub fn hex(bits: &Bits) -> String {
    bits.bytes(0).iter().map(|byte| format!("{byte:02X}")).collect()
}
