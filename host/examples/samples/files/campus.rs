//! A campus far from the origin: ducts from a plant to six buildings, and the ducts in each. Feet of a survey grid.
//!
//! Pieces that adjoin have the same doubles at their common ends, or lie on the neighbour's side. In single precision a coordinate of x is a
//! multiple of 0.5 here and one of y a multiple of 1, so that arcs, given by their centres, and branches, which start between a duct's corners,
//! no longer meet them.

use std::f64::consts::{FRAC_PI_2, TAU};

use dwg_hatch::{HatchEdge, HatchPath};

use super::body::{arc, edges, hatch, line, lined, plan, straight, FULL};
use super::layouts::Plan;

/// The plant's centre.
const PLANT: (f64, f64) = (4_650_210.37, 9_230_146.81);

/// Where the buildings' ducts start, as the way from the plant: whole sides of right triangles, so that no direction is rounded much, and how
/// many times the third side it is.
const WAYS: [(f64, f64, f64, f64); 6] = [
    (4.0, 3.0, 5.0, 931.25),
    (-3.0, 4.0, 5.0, 744.1),
    (-12.0, 5.0, 13.0, 1012.7),
    (-15.0, -8.0, 17.0, 866.43),
    (5.0, -12.0, 13.0, 640.9),
    (24.0, -7.0, 25.0, 1103.3),
];

/// A building's own axes: u along the way from the plant, v to its left.
struct Frame {
    origin: (f64, f64),
    cos: f64,
    sin: f64,
}

impl Frame {
    fn new((x, y, side, distance): (f64, f64, f64, f64)) -> Frame {
        let (cos, sin) = (x / side, y / side);
        Frame { origin: (PLANT.0 + distance * cos, PLANT.1 + distance * sin), cos, sin }
    }

    fn at(&self, (u, v): (f64, f64)) -> (f64, f64) {
        (self.origin.0 + (u * self.cos - v * self.sin), self.origin.1 + (u * self.sin + v * self.cos))
    }

    /// A piece with straight sides.
    fn piece(&self, corners: &[(f64, f64)]) -> HatchPath<u64> {
        straight(3, &corners.iter().map(|corner| self.at(*corner)).collect::<Vec<_>>())
    }

    fn block(&self, [left, right]: [f64; 2], [low, high]: [f64; 2]) -> HatchPath<u64> {
        self.piece(&[(left, low), (right, low), (right, high), (left, high)])
    }

    /// A quarter of a ring as edges, by its centre and radii; from one end, by the directions of its ends, which are axes.
    fn elbow(&self, center: (f64, f64), radii: [f64; 2], from: (f64, f64), to: (f64, f64)) -> HatchPath<u64> {
        let end = |axis: (f64, f64), radius: f64| self.at((center.0 + axis.0 * radius, center.1 + axis.1 * radius));
        let left = from.0 * to.1 - from.1 * to.0 > 0.0;
        let bend = |radius: f64, first: (f64, f64), left: bool| self.quarter(center, radius, first, left);
        let [inner, outer] = radii;
        let sides = [line(end(from, inner), end(from, outer)), bend(outer, from, left), line(end(to, outer), end(to, inner)), bend(inner, to, !left)];
        edges(1, sides.to_vec())
    }

    /// A quarter circle from an axis on. The angles of a clockwise arc are measured clockwise.
    fn quarter(&self, center: (f64, f64), radius: f64, first: (f64, f64), counter_clockwise: bool) -> HatchEdge<u64> {
        let angle = first.1.atan2(first.0) + self.sin.atan2(self.cos);
        let angle = if counter_clockwise { angle } else { -angle }.rem_euclid(TAU);
        arc(self.at(center), radius, (angle, angle + FRAC_PI_2), counter_clockwise)
    }

    fn circle(&self, center: (f64, f64), radius: f64) -> HatchPath<u64> {
        edges(0, vec![arc(self.at(center), radius, (0.0, FULL), true)])
    }

    /// A diffuser: a square with a round neck as its island.
    fn diffuser(&self, (u, v): (f64, f64)) -> Vec<HatchPath<u64>> {
        vec![self.block([u - 2.0, u + 2.0], [v - 2.0, v + 2.0]), self.circle((u, v), 1.5)]
    }

    /// The ducts of a building, in the air's order.
    fn ducts(&self) -> Vec<Vec<HatchPath<u64>>> {
        let (down, right, left, up) = ((0.0, -1.0), (1.0, 0.0), (-1.0, 0.0), (0.0, 1.0));
        vec![
            vec![self.piece(&[(-6.0, -2.0), (0.0, -1.25), (0.0, 1.25), (-6.0, 2.0)])],
            vec![self.block([0.0, 16.0], [-1.25, 1.25])],
            vec![self.elbow((16.0, 2.75), [1.5, 4.0], down, right)],
            vec![self.block([17.5, 20.0], [2.75, 10.0])],
            vec![self.elbow((21.5, 10.0), [1.5, 4.0], left, up)],
            vec![self.block([21.5, 32.0], [11.5, 14.0])],
            vec![self.piece(&[(32.0, 11.5), (35.0, 12.0), (35.0, 13.5), (32.0, 14.0)])],
            vec![self.block([35.0, 42.0], [12.0, 13.5])],
            self.diffuser((44.0, 12.75)),
            vec![self.block([5.0, 6.25], [-6.0, -1.25])],
            self.diffuser((5.625, -8.0)),
            vec![self.block([11.0, 12.25], [-6.0, -1.25])],
            self.diffuser((11.625, -8.0)),
            vec![self.block([20.0, 25.0], [5.5, 6.75])],
            self.diffuser((27.0, 6.125)),
            vec![self.block([25.0, 26.25], [14.0, 18.0])],
            self.diffuser((25.625, 20.0)),
        ]
    }
}

pub fn text() -> String {
    let mut text = format!(
        "# A campus far from the origin, release 2 (R2000), in feet of a survey grid: x from about 4,649,000 to 4,652,000, y from about\n\
        # 9,229,000 to 9,231,000. A double has digits for a millionth of an inch there; a single steps by half a foot in x, by one in y.\n\
        # The plant's plenum, round.\n{}",
        hatch(&plan(2, "SOLID", vec![edges(1, vec![arc(PLANT, 20.0, (0.0, FULL), true)])]), 1)
    );
    for (at, way) in WAYS.into_iter().enumerate() {
        let frame = Frame::new(way);
        let house = lined(plan(2, "ANSI31", vec![frame.block([-14.0, 52.0], [-16.0, 28.0])]), 4.0);
        let main = plan(2, "SOLID", vec![frame.block([20.0 - way.3, -6.0], [-2.0, 2.0])]);
        let ducts = frame.ducts().into_iter().map(|paths| plan(2, "SOLID", paths));
        text += &format!("# Building {}: its walls, the duct from the plant, and the ducts in it.\n", at + 1);
        let plans = [house, main].into_iter().chain(ducts).collect::<Vec<Plan>>();
        plans.iter().enumerate().for_each(|(part, plan)| text += &hatch(plan, 1000 + (100 * at + part) as u64));
    }
    text
}
