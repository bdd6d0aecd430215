//! Objects' records, one for each way in which a prefix, a hatch body, its texts and its handles lie: what docs/PAYLOADS.md speaks of.

use super::body::{plan, straight};
use super::layouts::{Numbers, Plan};
use super::records::{Laid, Record, HATCH};

/// The handle of all of them.
const HANDLE: u64 = 0x2a;

/// Each by the name of its file.
pub fn all() -> Vec<(&'static str, Laid)> {
    vec![
        ("object-r14.bin", object(1, "SOLID")),
        ("object-r2000.bin", object(2, "SOLID")),
        ("object-r2004.bin", object(3, "SOLID")),
        ("object-r2007.bin", object(4, "SOLID")),
        ("object-r2010.bin", object(5, "SOLID")),
        ("object-r2013.bin", object(6, "")),
        ("object-r2018.bin", object(7, &"Zuluft ".repeat(300))),
    ]
}

/// A duct's outline with one boundary handle, which stands behind its fields together with the handle of the layer.
fn object(release: u64, name: &str) -> Laid {
    let mut duct = straight(7, &[(0.0, 0.0), (12.5, 0.0), (12.5, 2.0), (0.0, 2.0)]);
    duct.num_boundary_handles = 1;
    let plan: Plan = plan(release, name, vec![duct]);
    let n = &mut Numbers(release);
    let [fields, strings] = plan.lay_out(n, release >= 4);
    let strings = if name.is_empty() { super::layouts::Bits(Vec::new()) } else { strings };
    let record = Record { release, type_number: HATCH, handle: HANDLE, fields, strings, handles: vec![0x2b, 0x10] };
    record.lay_out(n)
}
