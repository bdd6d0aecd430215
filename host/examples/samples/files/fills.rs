//! What hatches are filled with: pattern lines with and without dashes, and gradients.

use std::f64::consts::{FRAC_PI_2, FRAC_PI_4, FRAC_PI_6, PI};

use dwg_hatch::{HatchPath, Name, PatternLine};

use super::body::{arc, bulged, edges, hatch, plan, point, straight, FULL};
use super::layouts::{Fill, Plan};

/// A pattern line as a pattern file has it: the angle, and the origin, the offset and the dashes seen along the line. A body has origin and offset
/// turned by the angle.
fn family(angle: f64, origin: (f64, f64), (along, across): (f64, f64), dashes: &[f64]) -> PatternLine<u64> {
    let (sin, cos) = angle.sin_cos();
    let offset = point((along * cos - across * sin, along * sin + across * cos));
    PatternLine { angle: angle.to_bits(), origin: point(origin), offset, dashes: dashes.iter().map(|dash| dash.to_bits()).collect() }
}

fn block([left, right]: [f64; 2], [low, high]: [f64; 2]) -> HatchPath<u64> {
    straight(3, &[(left, low), (right, low), (right, high), (left, high)])
}

fn circle(center: (f64, f64), radius: f64) -> HatchPath<u64> {
    edges(0, vec![arc(center, radius, (0.0, FULL), true)])
}

/// Six patterns beside one another, by their families.
pub fn patterns() -> String {
    let insulation = vec![block([0.0, 14.0], [0.0, 10.0]), circle((7.0, 5.0), 3.0)];
    let grate = vec![circle((21.0, 5.0), 5.0)];
    let wall = vec![block([28.0, 42.0], [0.0, 10.0])];
    let ground = vec![bulged(3, &[(0.0, 13.0, 0.3), (14.0, 13.0, 0.0), (14.0, 20.0, -0.3), (0.0, 20.0, 0.0)])];
    let (sand, lawn) = (vec![circle((21.0, 18.0), 5.0)], vec![straight(3, &[(28.0, 13.0), (42.0, 13.0), (35.0, 23.0)])]);
    let bricks = vec![
        family(0.0, (28.0, 0.0), (0.0, 1.0), &[]),
        family(FRAC_PI_2, (28.0, 0.0), (0.0, 2.0), &[1.0, -1.0]),
        family(FRAC_PI_2, (29.0, 0.0), (0.0, 2.0), &[-1.0, 1.0]),
    ];
    let drawn = [
        ("ANSI31", insulation, vec![family(FRAC_PI_4, (0.0, 0.0), (0.0, 0.75), &[])]),
        ("NET", grate, vec![family(0.0, (21.0, 5.0), (0.0, 1.0), &[]), family(FRAC_PI_2, (21.0, 5.0), (0.0, 1.0), &[])]),
        ("BRICK", wall, bricks),
        ("DASHDOT", ground, vec![family(FRAC_PI_6, (0.0, 13.0), (0.0, 0.75), &[1.5, -0.5, 0.0, -0.5])]),
        ("DOTS", sand, vec![family(0.0, (21.0, 18.0), (0.25, 0.5), &[0.0, -0.5])]),
        ("ZIGZAG", lawn, vec![family(0.0, (28.0, 13.0), (0.5, 0.5), &[0.5, -0.5]), family(FRAC_PI_2, (28.5, 13.0), (0.5, 0.5), &[0.5, -0.5])]),
    ];
    let request = |(at, (name, paths, lines)): (usize, (&str, Vec<HatchPath<u64>>, Vec<PatternLine<u64>>))| {
        hatch(&Plan { solid: false, lines, ..plan(2, name, paths) }, 300 + at as u64)
    };
    let lines: String = drawn.into_iter().enumerate().map(request).collect();
    format!("# Patterns, release 2 (R2000): lines at 45 degrees around an island, a net, bricks, dashes with dots, dots, and steps.\n{lines}")
}

/// Gradients by their names, each from a first colour to a last one.
pub fn gradients() -> String {
    let (blue, light, red) = (0xc21f_5fa8, 0xc2dc_e8f5, 0xc2b0_2a45);
    let pipe = bulged(3, &[(14.0, 0.0, 0.0), (26.0, 0.0, 1.0), (26.0, 5.0, 0.0), (14.0, 5.0, 1.0)]);
    let drawn = [
        ("LINEAR", 0.0, 0.0, vec![blue, light], block([0.0, 11.0], [0.0, 5.0])),
        ("CYLINDER", FRAC_PI_2, 0.0, vec![blue, light], pipe),
        ("SPHERICAL", 0.0, 1.0, vec![blue, light], circle((34.0, 2.5), 3.5)),
        ("INVSPHERICAL", 0.0, 0.0, vec![blue, light], block([0.0, 11.0], [8.0, 13.0])),
        ("HEMISPHERICAL", 0.0, 0.0, vec![blue, light], bulged(3, &[(12.0, 8.0, 0.0), (28.0, 8.0, 0.5)])),
        ("LINEAR", PI / 3.0, 0.0, vec![red], block([30.0, 38.0], [8.0, 13.0])),
    ];
    let request = |(at, (name, angle, shift, colours, path)): (usize, (&str, f64, f64, Vec<usize>, HatchPath<u64>))| {
        let last = (colours.len() - 1).max(1) as f64;
        let colours = colours.into_iter().enumerate().map(|(at, rgb)| ((at as f64 / last).to_bits(), 0, rgb, 0)).collect();
        let names = [name, "SOLID"].map(|name| Name::Bytes(name.into()));
        let fill = Fill { doubles: [angle, shift, 0.9].map(f64::to_bits), colours };
        hatch(&Plan { names, gradient: true, fill, ..plan(3, "", vec![path]) }, 400 + at as u64)
    };
    let lines: String = drawn.into_iter().enumerate().map(request).collect();
    format!("# Gradients, release 3 (R2004): along a line, as a pipe, round ones, and one of a single colour and its tint.\n{lines}")
}
