//! The first requests of a run of moves: every cap reached and passed by one, with all entries there, kinds that there are none of, the bounds of
//! coordinates and origins, and names by how they end.

use crate::doubles::ONE;

/// The bound, and the sign.
const BOUND: u64 = 0x4270_0000_0000_0000;
const SIGN: u64 = 1 << 63;

/// All of them.
pub fn all() -> Vec<String> {
    let mut lines = Vec::new();
    for above in [0, 1] {
        lines.extend(at_caps(above));
    }
    lines.extend([0, 5, 6, 257, u32::MAX].into_iter().flat_map(of_kind));
    for bits in [BOUND, BOUND + 1, SIGN | BOUND, SIGN | (BOUND + 1), BOUND - 1] {
        lines.push(whole(&["nseeds=1".to_string()], &[], &[bits, 0]));
        lines.push(format!("move {bits:016x} {:016x} ext={}", 0, extrusion_up()));
        lines.push(format!("move {:016x} {bits:016x} ext={}", 0, extrusion_up()));
    }
    lines.extend(PADDINGS.into_iter().flat_map(padded));
    lines
}

/// What stands behind a name's units: 0 and 1 in two spellings each, and what no name ends in, since PADDED is 0 or 1 and the last of six parts.
pub const PADDINGS: [&str; 12] = [":0", ":1", "", ":", ":2", ":00", ":01", ":10", ":256", ":+1", ":-", ":0:0"];

/// Names that end so: an absent one, an empty one, one with a unit.
fn padded(padding: &str) -> Vec<String> {
    let texts = ["gname=-:0:0:0:-", "gname=s:16:9:1:0041", "name=m:8:9:0:-", "name=m:8:9:1:41"];
    texts.map(|text| whole(&[format!("{text}{padding}")], &[], &[])).to_vec()
}

fn extrusion_up() -> String {
    format!("{:016x},{:016x},{ONE:016x}", 0, 0)
}

/// A whole hatch, moved by (1, 1).
fn whole(counts: &[String], words: &[u32], numbers: &[u64]) -> String {
    let list = |items: Vec<String>| if items.is_empty() { "-".to_string() } else { items.join(",") };
    let words = list(words.iter().map(u32::to_string).collect());
    let numbers = list(numbers.iter().map(|bits| format!("{bits:016x}")).collect());
    format!("move {ONE:016x} {ONE:016x} ext={} {} words={words} nums={numbers}", extrusion_up(), counts.join(" "))
}

/// An edge of a kind that there is none of, with the entries of a line, an arc, an ellipse and a spline.
fn of_kind(kind: u32) -> Vec<String> {
    let shapes: [(&[u32], usize); 4] = [(&[], 4), (&[1], 5), (&[0], 7), (&[3, 0, 0, 0, 1, 0], 2)];
    let edge = |(more, numbers): (&[u32], usize)| whole(&["npaths=1".to_string()], &[&[0, 1, kind], more, &[0]].concat(), &vec![ONE; numbers]);
    shapes.into_iter().map(edge).collect()
}

/// Each count at its cap, or one above, the rest of the hatch to fit.
fn at_caps(above: u32) -> Vec<String> {
    let long = 100_000 + above;
    let paths = vec!["npaths=1".to_string()];
    let zeros = |count: u32| vec![0; count as usize];
    let many = |item: &[u32], count: u32| item.iter().copied().cycle().take(item.len() * count as usize).collect::<Vec<u32>>();
    vec![
        whole(&paths, &[2, 0, 0, long, 0], &zeros(2 * long)),
        whole(&paths, &[2, 1, 1, long, 0], &zeros(3 * long)),
        whole(&paths, &[&[0, long][..], &many(&[4, 0, 0, 0, 0, 0, 0], long), &[0]].concat(), &[]),
        whole(&paths, &[0, 1, 4, 3, 0, 0, long, 0, 0, 0], &zeros(long)),
        whole(&paths, &[0, 1, 4, 3, 1, 0, 0, long, 0, 0], &zeros(3 * long)),
        whole(&paths, &[0, 1, 4, 3, 0, 1, 0, 0, long, 0], &zeros(2 * long + 4)),
        whole(&paths, &[0, 0, 1_024 + above], &[]),
        whole(&[format!("npaths={}", 10_000 + above)], &many(&[0, 0, 0], 10_000 + above), &[]),
        whole(&[format!("nlines={}", 4_096 + above)], &many(&[0], 4_096 + above), &zeros(5 * (4_096 + above))),
        whole(&["nlines=1".to_string()], &[64 + above], &zeros(5 + 64 + above)),
        whole(&[format!("nseeds={}", 1_024 + above)], &[], &zeros(2 * (1_024 + above))),
        whole(&[format!("gn={}", 16 + above)], &[], &[]),
    ]
}
