//! A small drawing of R2000: a room with a duct and a diffuser as hatches, and entities that are no hatches.

use std::f64::consts::PI;

use super::body::{arc, bulged, edges, lined, plan, point, straight, FULL};
use super::layouts::{Bits, Numbers, Plan};
use super::records::{drawing_of, Record, HATCH};

/// The drawing's bytes. The objects lie in another order than their handles, and the map has three blocks.
pub fn drawing() -> Vec<u8> {
    let objects = [
        (0x2c, HATCH, hatch(diffuser())),
        (0x2a, HATCH, hatch(room())),
        (0x31, 27, corner()),
        (0x30, 19, wall()),
        (0x32, 17, door()),
        (0x2b, HATCH, hatch(duct())),
        // A type that is no entity's.
        (0x0c, 42, Bits(vec![true, false, true])),
    ];
    let laid = objects.map(|(handle, type_number, fields)| {
        let record = Record { release: 2, type_number, handle, fields, strings: Bits(Vec::new()), handles: vec![0x1f, 0x10] };
        (handle, record.lay_out(&mut Numbers(handle)).bytes)
    });
    drawing_of(&laid, 3)
}

fn hatch(plan: Plan) -> Bits {
    let [fields, _] = plan.lay_out(&mut Numbers(plan.paths.len() as u64 + 40), false);
    fields
}

/// The room's floor, with lines, and a shaft that is left out. Its boundary is one object.
fn room() -> Plan {
    let mut floor = straight(7, &[(0.0, 0.0), (24.0, 0.0), (24.0, 16.0), (0.0, 16.0)]);
    floor.num_boundary_handles = 1;
    let shaft = straight(18, &[(1.0, 12.0), (4.0, 12.0), (4.0, 15.0), (1.0, 15.0)]);
    lined(plan(2, "ANSI31", vec![floor, shaft]), 2.0)
}

/// A duct from the shaft, which turns right.
fn duct() -> Plan {
    let bend = (PI / 8.0).tan();
    let vertices = [
        (4.0, 12.5, 0.0),
        (13.0, 12.5, -bend),
        (13.5, 12.0, 0.0),
        (13.5, 7.0, 0.0),
        (15.5, 7.0, 0.0),
        (15.5, 12.0, bend),
        (13.0, 14.5, 0.0),
        (4.0, 14.5, 0.0),
    ];
    Plan { seeds: vec![point((8.0, 13.5))], ..plan(2, "SOLID", vec![bulged(3, &vertices)]) }
}

/// A square around a round neck.
fn diffuser() -> Plan {
    let square = straight(3, &[(12.5, 3.0), (16.5, 3.0), (16.5, 7.0), (12.5, 7.0)]);
    plan(2, "SOLID", vec![square, edges(0, vec![arc((14.5, 5.0), 1.5, (0.0, FULL), true)])])
}

/// A line's fields: both z are 0; each end's x and y, in full; no thickness; the usual extrusion.
fn wall() -> Bits {
    let mut bits = Bits(Vec::new());
    bits.number(1, 1);
    for (start, end) in [(0.0f64, 24.0f64), (16.5, 16.5)] {
        bits.raw(start.to_bits(), 8);
        bits.number(if start == end { 0 } else { 3 }, 2);
        if start != end {
            bits.raw(end.to_bits(), 8);
        }
    }
    bits.number(3, 2);
    bits
}

/// A point's fields: x, y, z; no thickness; the usual extrusion; an angle.
fn corner() -> Bits {
    let (n, mut bits) = (&mut Numbers(27), Bits(Vec::new()));
    [24.0f64, 16.0, 0.0].iter().for_each(|number| bits.bd(n, number.to_bits()));
    bits.number(3, 2);
    bits.bd(n, 0);
    bits
}

/// An arc's fields: centre, radius; no thickness; the usual extrusion; two angles.
fn door() -> Bits {
    let (n, mut bits) = (&mut Numbers(17), Bits(Vec::new()));
    [20.0f64, 0.0, 0.0, 3.0].iter().for_each(|number| bits.bd(n, number.to_bits()));
    bits.number(3, 2);
    [0.0, PI / 2.0].iter().for_each(|number: &f64| bits.bd(n, number.to_bits()));
    bits
}
