//! Names that are padded with a closing zero, beside the same names without it.

use super::body::{hatch, lined, plan, request, straight};
use super::layouts::Bits;

/// Four ducts beside one another: one name as some offices write it and as others do, and a name that is nothing but its zero.
pub fn text() -> String {
    let outline = |left: f64| straight(3, &[(left, 0.0), (left + 16.0, 0.0), (left + 16.0, 5.0), (left, 5.0)]);
    let insulated = |release: u64, name: &str, left: f64| lined(plan(release, name, vec![outline(left)]), 1.0);
    let plain = hatch(&insulated(2, "DUCT-INSUL", 0.0), 501);
    let padded = hatch(&insulated(2, "DUCT-INSUL\0", 18.0), 502);
    let wide = request(&insulated(5, "DUCT-INSUL\0", 36.0), Bits(Vec::new()), true, 503);
    let zero = hatch(&plan(2, "\0", vec![outline(54.0)]), 504);
    format!(
        "# One pattern name from three offices; read --names lists it, since it stands both padded and not. Release 2 (R2000), not padded.\n{plain}\
        # Release 2, padded: a zero unit closes the name. It is dropped, and not counted.\n{padded}\
        # Release 5 (R2010), padded, its units of 16 bits in a string payload.\n{wide}\
        # Release 2, one zero unit alone: the name has no units, and is padded.\n{zero}"
    )
}
