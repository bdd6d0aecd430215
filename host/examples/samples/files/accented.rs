//! Names with accented letters: bytes of code page 1252 before R2007, and one of the names in 16-bit units.

use dwg_hatch::Name;

use super::body::{hatch, lined, plan, request, straight};
use super::layouts::{Bits, Plan};

/// Five rooms of a duct legend beside one another. Before R2007 a name is the bytes that are given, as a drawing has them.
pub fn text() -> String {
    let outline = |left: f64| straight(3, &[(left, 0.0), (left + 12.0, 0.0), (left + 12.0, 5.0), (left, 5.0)]);
    let bytes = |release: u64, name: &[u8], left: f64| {
        let names = [Vec::new(), name.to_vec()].map(Name::Bytes);
        lined(Plan { names, ..plan(release, "", vec![outline(left)]) }, 1.0)
    };
    let kitchen = hatch(&bytes(2, b"K\xfcche", 0.0), 601);
    let price = hatch(&bytes(1, b"\x80 5", 14.0), 602);
    let station = hatch(&bytes(3, b"Estaci\xf3n", 28.0), 603);
    let wide = request(&lined(plan(5, "K\u{fc}che\0", vec![outline(42.0)]), 1.0), Bits(Vec::new()), true, 604);
    let undefined = hatch(&bytes(2, b"D\x81N", 56.0), 605);
    format!(
        "# Names with accented letters; read and draw --code-page 1252 show them. Release 2 (R2000): K\u{fc}che, in 8-bit units of Windows code page 1252.\n\
        {kitchen}\
        # Release 1 (R14): a euro sign, a space and 5. The euro sign is 80 in the page, and another number in Unicode.\n{price}\
        # Release 3 (R2004): Estaci\u{f3}n.\n{station}\
        # Release 5 (R2010): K\u{fc}che again, in 16-bit units and padded; with the page read --names takes it for the first one's name.\n{wide}\
        # Release 2: the byte 81 stands for nothing in the page, so this name is shown as its units.\n{undefined}"
    )
}
