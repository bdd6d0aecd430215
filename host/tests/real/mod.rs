//! Drawings of a CAD program: b16step1.dwg to b16step5.dwg of Debian's package z88-data. They are looked for in the folder that DWG_HATCH_DRAWINGS names,
//! else where the package puts them. host/test says whether they are at hand.

use std::path::PathBuf;

use dwg_hatch::{read_b, read_bd, read_bs_u, read_common_entity_bits, read_dd, read_handle, read_rd, read_rl, Refusal};

use super::calls::{answers, call, refuses};

fn folder() -> Option<PathBuf> {
    let named = std::env::var_os("DWG_HATCH_DRAWINGS").filter(|folder| !folder.is_empty());
    let folder = named.map_or_else(|| PathBuf::from("/usr/share/z88"), PathBuf::from);
    folder.join("b16step1.dwg").is_file().then_some(folder)
}

/// The bit after a thickness and an extrusion.
fn thickness_and_extrusion(payload: &[u8], place: usize) -> Result<usize, Refusal> {
    let (none, mut place) = read_b(payload, place)?;
    if !none {
        place = read_bd(payload, place)?.1;
    }
    let (usual, place) = read_b(payload, place)?;
    if usual { Ok(place) } else { doubles(payload, place, 3) }
}

/// The bit after so many BD.
fn doubles(payload: &[u8], place: usize, count: usize) -> Result<usize, Refusal> {
    (0..count).try_fold(place, |place, _| read_bd(payload, place).map(|read| read.1))
}

/// The bit after a LINE's, POINT's or ARC's own fields; `None` of another type.
fn fields_end(type_number: u16, payload: &[u8], place: usize) -> Result<Option<usize>, Refusal> {
    match type_number {
        19 => {
            let (flat, mut place) = read_b(payload, place)?;
            for _ in 0..if flat { 2 } else { 3 } {
                let (start, behind) = read_rd(payload, place)?;
                place = read_dd(payload, behind, start)?.1;
            }
            thickness_and_extrusion(payload, place).map(Some)
        }
        27 => doubles(payload, thickness_and_extrusion(payload, doubles(payload, place, 3)?)?, 1).map(Some),
        17 => doubles(payload, thickness_and_extrusion(payload, doubles(payload, place, 4)?)?, 2).map(Some),
        _ => Ok(None),
    }
}

/// A prefix line of `cut`, and the comment before it: the handle, the payload and where the prefix starts.
fn prefix_line(comment: &str, line: &str) -> (u64, Vec<u8>, usize) {
    let handle = comment.strip_prefix("# handle ").and_then(|rest| rest.split_once(':')).expect("a handle").0;
    let fields: Vec<&str> = line.split(' ').collect();
    let bytes = fields[3].as_bytes().chunks(2).map(|pair| u8::from_str_radix(std::str::from_utf8(pair).expect("digits"), 16).expect("a byte"));
    (u64::from_str_radix(handle, 16).expect("a handle"), bytes.collect(), fields[2].parse().expect("a bit"))
}

/// How many prefixes of a drawing are read, and of how many entities the end is compared with the file's own.
fn compare(drawing: &str) -> [usize; 2] {
    let cut = answers(&["cut", "--prefixes", drawing], b"");
    let lines: Vec<&str> = cut.lines().collect();
    let mut counts = [0; 2];
    for pair in lines.windows(2).filter(|pair| pair[1].starts_with("prefix ")) {
        let (handle, payload, start) = prefix_line(pair[0], pair[1]);
        let (type_number, place) = read_bs_u(&payload, 0).expect("a type");
        let (size, place) = read_rl(&payload, place).expect("a size");
        assert_eq!(read_handle(&payload, place).map(|(own, place)| (own.value, place)), Ok((handle, start)), "{drawing}: {handle:X}");
        assert!(pair[0].ends_with(&format!("; its own fields end at bit {size}")), "{drawing}: {}", pair[0]);
        let (_, body) = read_common_entity_bits(&payload, start, 2).unwrap_or_else(|refusal| panic!("{drawing}: {handle:X}: {refusal}"));
        let end = fields_end(type_number, &payload, body).unwrap_or_else(|refusal| panic!("{drawing}: {handle:X}: {refusal}"));
        assert!(end.is_none_or(|end| end == size as usize), "{drawing}: {handle:X}: {end:?}, and not {size}");
        counts[0] += 1;
        counts[1] += usize::from(end.is_some());
    }
    counts
}

#[test]
fn drawings_of_a_cad_program_are_cut() {
    let Some(folder) = folder() else { return };
    let mut counts = [0; 2];
    let mut objects = 0;
    for number in 1..=5 {
        let drawing = folder.join(format!("b16step{number}.dwg"));
        let drawing = drawing.to_str().expect("UTF-8");
        let found = compare(drawing);
        counts = [0, 1].map(|at| counts[at] + found[at]);
        let cut = answers(&["cut", drawing], b"");
        let last = cut.lines().last().expect("a line").to_string();
        objects += last.split(' ').nth(1).expect("a count").parse::<usize>().expect("a number");
        assert!(last.contains(": hatches 0, "), "{last}");
        assert_eq!(answers(&["prefix", drawing], b"").matches(": prefix, release 2 (R2000), bits ").count(), found[0]);
    }
    assert_eq!((objects, counts), (1104, [774, 536]));
}

/// The same package has a drawing of R2004.
#[test]
fn a_later_drawing_of_a_cad_program_is_told_apart() {
    let Some(drawing) = folder().map(|folder| folder.join("b16_n.dwg")).filter(|drawing| drawing.is_file()) else { return };
    for command in ["read", "prefix", "draw", "cut"] {
        let line = refuses(&call(&[command.as_ref(), drawing.as_os_str()], b""), 2);
        assert!(line.contains(": this is a whole drawing of R2004; "), "{line}");
    }
}
