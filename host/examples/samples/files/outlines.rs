//! Outlines of every kind, near the origin.

use std::f64::consts::{FRAC_PI_2, PI};

use super::body::{arc, bulged, edges as path, ellipse, fitted, hatch, line, plan, point, request, spline, straight, FULL};
use super::layouts::{Bits, Fill, Plan};

/// A duct that turns left, with a round end.
pub fn duct() -> String {
    let bend = (PI / 8.0).tan();
    let vertices = [
        (0.0, 0.0, 0.0),
        (20.0, 0.0, bend),
        (26.0, 6.0, 0.0),
        (26.0, 16.0, 0.0),
        (22.0, 16.0, 0.0),
        (22.0, 6.0, -bend),
        (20.0, 4.0, 0.0),
        (0.0, 4.0, 1.0),
    ];
    let plan = Plan { seeds: vec![point((10.0, 2.0))], ..plan(2, "SOLID", vec![bulged(3, &vertices)]) };
    format!(
        "# One duct, release 2 (R2000): a closed polyline of eight vertices. Its bend has the bulge of a quarter circle outside,\n\
        # counterclockwise, and inside, clockwise; the closing segment has the last vertex's bulge, 1, which is a half circle.\n{}",
        hatch(&plan, 2)
    )
}

/// All four kinds of edges, islands, and splines that cannot be drawn as curves.
pub fn edges() -> String {
    let around = path(
        1,
        vec![
            line((0.0, 0.0), (10.0, 0.0)),
            arc((10.0, 3.0), 3.0, (1.5 * PI, FRAC_PI_2), true),
            ellipse((7.0, 6.0), (3.0, 0.0), 0.5, (0.0, PI), true),
            spline(3, &[0.0, 0.0, 0.0, 0.0, 1.0, 1.0, 1.0, 1.0], &[(4.0, 6.0), (3.0, 9.0), (0.0, 9.0), (0.0, 4.0)], None),
            arc((0.0, 2.0), 2.0, (1.5 * PI, FRAC_PI_2), false),
        ],
    );
    let islands = [path(0, vec![arc((9.0, 2.5), 1.5, (0.0, FULL), false)]), path(0, vec![ellipse((4.5, 4.0), (1.6, 1.2), 0.5, (0.0, FULL), true)])];
    let first = Plan { seeds: vec![point((4.0, 1.0)), point((7.0, 6.5))], ..plan(2, "SOLID", [vec![around], islands.to_vec()].concat()) };
    format!(
        "# All kinds of edges, release 2 (R2000): a line, an arc, half an ellipse, a spline of degree 3 and a clockwise arc around a\n\
        # circle and an ellipse as islands; two seed points.\n{}\
        # Splines, release 5 (R2010): a circle as a rational spline of degree 2 around a spline whose knots fall, and below it a\n\
        # spline that has fit points alone. The last two are drawn as dashed lines.\n{}",
        hatch(&first, 3),
        hatch(&plan(5, "SPLINES", splines()), 5)
    )
}

fn splines() -> Vec<dwg_hatch::HatchPath<u64>> {
    let half = 0.5f64.sqrt();
    let ring = [(1, 0), (1, 1), (0, 1), (-1, 1), (-1, 0), (-1, -1), (0, -1), (1, -1), (1, 0)];
    let ring = ring.map(|(x, y)| (19.0 + 4.0 * f64::from(x), 4.5 + 4.0 * f64::from(y)));
    let knots = [0.0, 0.0, 0.0, 1.0, 1.0, 2.0, 2.0, 3.0, 3.0, 4.0, 4.0, 4.0];
    let circle = spline(2, &knots, &ring, Some(&[1.0, half, 1.0, half, 1.0, half, 1.0, half, 1.0]));
    let falling = spline(3, &[0.0, 0.0, 0.0, 0.0, -1.0, 1.0, 1.0, 1.0], &[(17.0, 4.0), (18.0, 7.0), (20.0, 7.0), (21.0, 4.0)], None);
    vec![path(1, vec![circle]), path(0, vec![falling]), path(0, vec![fitted(&[(17.0, 3.0), (18.0, 2.0), (19.0, 3.0), (20.0, 2.0), (21.0, 3.0)])])]
}

/// Names from a string payload, and gradients.
pub fn strings() -> String {
    let red_to_blue = || vec![(0f64.to_bits(), 5, 0xc2ff_0000, 3), (1f64.to_bits(), 0, 0xc200_00ff, 3)];
    let fill = || Fill { doubles: [PI / 4.0, 0.0, 1.0].map(f64::to_bits), colours: red_to_blue() };
    let named = |release: u64, names: [&str; 2], paths| {
        let names = names.map(|name| dwg_hatch::Name::Characters(name.to_string()));
        Plan { names, gradient: true, fill: fill(), ..plan(release, "", paths) }
    };
    let diffuser = vec![straight(3, &[(0.0, 0.0), (6.0, 0.0), (6.0, 6.0), (0.0, 6.0)]), path(0, vec![arc((3.0, 3.0), 2.0, (0.0, FULL), true)])];
    let slot = vec![bulged(3, &[(9.0, 2.0, 0.0), (15.0, 2.0, 1.0), (15.0, 4.0, 0.0), (9.0, 4.0, 1.0)])];
    let one = request(&named(5, ["LINEAR", "SOLID"], diffuser), Bits(Vec::new()), true, 7);
    let two = request(&named(7, ["SPHERICAL", "Zuluft <Küche> & Büro"], slot), Bits(Vec::new()), true, 11);
    format!(
        "# A diffuser, release 5 (R2010): a square around a circle. Its gradient's name and its pattern's are in a string payload.\n{one}\
        # A slot, release 7 (R2018), with a name that has letters outside ASCII, and some that XML takes for its own.\n{two}"
    )
}
