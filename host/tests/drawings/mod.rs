//! Request lines to be drawn.
#![allow(dead_code)]

#[path = "../layouts/mod.rs"]
pub mod layouts;

use dwg_hatch::{HatchPath, HatchPathSegments, Name, PatternLine, Point2D, Vertex};
use layouts::{Fill, Numbers, Plan};

/// A line with one closed polyline of release 2, with no bulges unless given.
pub fn polyline(points: &[(f64, f64)], bulge: Option<f64>) -> String {
    hatch(b"SOLID", vec![path(points, bulge)], Vec::new())
}

/// A closed polyline as a path.
pub fn path(points: &[(f64, f64)], bulge: Option<f64>) -> HatchPath<u64> {
    let vertex = |(x, y): &(f64, f64)| Vertex { point: point(*x, *y), bulge: bulge.map(f64::to_bits) };
    let segments = HatchPathSegments::Polyline { has_bulge: bulge.is_some(), is_closed: true, vertices: points.iter().map(vertex).collect() };
    HatchPath { flags: 3, segments, num_boundary_handles: 0 }
}

/// A line with a square from (0, 0) to a corner, and pattern lines: angle, origin, offset and dashes of each.
pub fn lined(side: f64, lines: &[(f64, [f64; 2], [f64; 2], &[f64])]) -> String {
    let bits = |dashes: &[f64]| dashes.iter().map(|dash| dash.to_bits()).collect();
    let lines = lines.iter().map(|(angle, [x, y], [across, up], dashes)| PatternLine {
        angle: angle.to_bits(),
        origin: point(*x, *y),
        offset: point(*across, *up),
        dashes: bits(dashes),
    });
    let square = path(&[(0.0, 0.0), (side, 0.0), (side, side), (0.0, side)], None);
    line(&Plan { solid: false, lines: lines.collect(), ..plan([0.0, 0.0, 1.0], b"LINED", vec![square], Vec::new()) }, &mut Numbers(1), false)
}

pub fn point(x: f64, y: f64) -> Point2D<u64> {
    Point2D { x: x.to_bits(), y: y.to_bits() }
}

pub fn hatch(name: &[u8], paths: Vec<HatchPath<u64>>, seeds: Vec<Point2D<u64>>) -> String {
    hatch_along([0.0, 0.0, 1.0], name, paths, seeds)
}

/// The same with an extrusion.
pub fn hatch_along(extrusion: [f64; 3], name: &[u8], paths: Vec<HatchPath<u64>>, seeds: Vec<Point2D<u64>>) -> String {
    line(&plan(extrusion, name, paths, seeds), &mut Numbers(1), false)
}

/// A solid hatch of release 2.
pub fn plan([x, y, z]: [f64; 3], name: &[u8], paths: Vec<HatchPath<u64>>, seeds: Vec<Point2D<u64>>) -> Plan {
    let names = [Vec::new(), name.to_vec()].map(Name::Bytes);
    let fill = Fill { doubles: [0; 3], colours: Vec::new() };
    let plane = [0.0, x, y, z].map(f64::to_bits);
    Plan { release: 2, names, gradient: false, fill, plane, style: 0, solid: true, paths, lines: Vec::new(), seeds }
}

pub fn line(plan: &Plan, n: &mut Numbers, reader: bool) -> String {
    let [main, strings] = plan.lay_out(n, reader);
    let hex = |bytes: Vec<u8>| if bytes.is_empty() { "-".to_string() } else { bytes.iter().map(|byte| format!("{byte:02x}")).collect() };
    // Handle counts must not pass the bits behind them, so some bytes are there.
    let main_hex = hex(main.bytes(200));
    match reader {
        true => format!("hatchs {} 0 {main_hex} 0 {} {}\n", plan.release, strings.0.len(), hex(strings.bytes(0))),
        false => format!("hatch {} 0 {main_hex}\n", plan.release),
    }
}

pub const TRIANGLE: [(f64, f64); 3] = [(0.0, 0.0), (4.0, 0.0), (4.0, 3.0)];
