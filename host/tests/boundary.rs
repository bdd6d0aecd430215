//! ffi.rs against the Rattle source, as texts: the same exported functions and the same structs, in the same order.
//!
//! This sees a forgotten or changed function, parameter or field. It is no proof that the two sides agree on how a call is made.

const ANSWERS: &str = concat!(env!("CARGO_MANIFEST_DIR"), "/../crates/boundary/src/lib.rt");
const LIB: &str = concat!(env!("CARGO_MANIFEST_DIR"), "/../crates/dwg_hatch/src/lib.rt");
const COLORS: &str = concat!(env!("CARGO_MANIFEST_DIR"), "/../crates/hatch_format/src/lib.rt");
const BODY_ANSWERS: &str = concat!(env!("CARGO_MANIFEST_DIR"), "/../crates/boundary/src/bodies.rt");
const BODIES: &str = concat!(env!("CARGO_MANIFEST_DIR"), "/../crates/dwg_hatch/src/bodies.rt");
const SEEDS: &str = concat!(env!("CARGO_MANIFEST_DIR"), "/../crates/dwg_hatch/src/seeds.rt");
const GIVEN: &str = concat!(env!("CARGO_MANIFEST_DIR"), "/../crates/boundary/src/given.rt");
const MOVE_ANSWERS: &str = concat!(env!("CARGO_MANIFEST_DIR"), "/../crates/boundary/src/moves.rt");
const MOVES: &str = concat!(env!("CARGO_MANIFEST_DIR"), "/../crates/dwg_hatch/src/moves.rt");
const CONVERSIONS: &str = concat!(env!("CARGO_MANIFEST_DIR"), "/../crates/boundary/src/conversions.rt");
const CODE_PAGES: &str = concat!(env!("CARGO_MANIFEST_DIR"), "/../crates/dwg_hatch/src/code_pages.rt");
const RUST: &str = concat!(env!("CARGO_MANIFEST_DIR"), "/src/boundary/ffi.rs");

/// How a function starts in each text.
const EXPORTED: &str = "pub extern \"C\" fn ";
const DECLARED: &str = "pub fn ";

fn text(path: &str) -> String {
    std::fs::read_to_string(path).unwrap_or_else(|error| panic!("{path}: {error}"))
}

/// The Rattle texts whose functions and structs cross the boundary, in ffi.rs's order.
fn rattle() -> String {
    [ANSWERS, LIB, COLORS, BODY_ANSWERS, BODIES, SEEDS, GIVEN, MOVE_ANSWERS, MOVES, CONVERSIONS, CODE_PAGES].map(text).join("\n")
}

fn lines(text: &str) -> Vec<&str> {
    text.lines().map(str::trim).collect()
}

/// `NAME(..) -> RESULT` of each function that starts so, with Rattle's slices as the pointer and length that they are in C. A signature on
/// several lines has a comma after its last parameter too.
fn functions(text: &str, start: &str) -> Vec<String> {
    let lines = lines(text);
    let starts = (0..lines.len()).filter(|at| lines[*at].starts_with(start));
    starts.map(|at| {
        let end = (at..lines.len()).find(|end| lines[*end].contains(") -> ")).expect("a signature with a result");
        let signature = lines[at..=end].join(" ").replace("( ", "(").replace(", )", ")");
        in_c(signature.trim_start_matches(start).trim_end_matches(';'))
    }).collect()
}

/// A signature with Rattle's slices as C has them: `s`'s length is `length`, any other NAME's is NAME_length.
fn in_c(signature: &str) -> String {
    let parameters = signature.split(", ").map(|parameter| {
        let Some((before, rest)) = parameter.split_once(": &") else { return parameter.to_string() };
        let name = before.rsplit('(').next().unwrap_or(before);
        let length = if name == "s" { "length".to_string() } else { format!("{name}_length") };
        let (pointer, rest) = rest.strip_prefix("mut ").map_or(("*const", rest), |rest| ("*mut", rest));
        let (kind, after) = rest.strip_prefix('[').and_then(|rest| rest.split_once(']')).expect("a slice");
        format!("{before}: {pointer} {kind}, {length}: usize{after}")
    });
    parameters.collect::<Vec<_>>().join(", ")
}

/// Each struct's name and fields, one line each, up to its closing brace. Only `#[repr(C)]` structs are taken; what they derive crosses no boundary.
fn structs(text: &str) -> Vec<String> {
    let mut found = Vec::new();
    let mut rest = lines(text).into_iter();
    while rest.any(|line| line == "#[repr(C)]") {
        let body = rest.by_ref().take_while(|line| *line != "}");
        found.extend(body.filter(|line| !line.starts_with("#[derive(")).map(str::to_string));
    }
    found
}

#[test]
fn functions_are_declared_as_they_are_exported() {
    let exported = functions(&rattle(), EXPORTED);
    let reads = ["dwg_read_b(", "dwg_read_tv(", "dwg_read_string_tv(", "dwg_read_common_entity_data(", "dwg_hatch_decode("];
    for start in reads.iter().chain(&["dwg_hatch_move_origin_bits(", "dwg_cp1252_to_units(", "dwg_cp1252_to_bytes("]) {
        assert!(exported.iter().any(|function| function.starts_with(start)), "{start}");
    }
    assert_eq!(functions(&text(RUST), DECLARED), exported);
}

#[test]
fn structs_have_the_fields_of_the_source() {
    let source = structs(&rattle());
    for name in ["CodeAnswer", "TextAnswer", "PrefixFields", "GradientColorBits", "TextGiven", "BodyGiven", "ConversionAnswer"] {
        let start = format!("pub struct {name} {{");
        assert!(source.contains(&start), "{start}");
    }
    assert_eq!(structs(&text(RUST)), source);
}

/// What a call takes is what a call gave, field by field, with its switches as bytes: so a caller in C hands over the very struct.
#[test]
fn a_given_hatch_has_the_fields_of_an_answer() {
    let rust = text(RUST);
    let fields = |name: &str| {
        let (start, all) = (format!("pub struct {name} {{"), structs(&rust));
        let at = all.iter().position(|line| *line == start).unwrap_or_else(|| panic!("{name}"));
        all[at + 1..].iter().take_while(|line| !line.starts_with("pub struct ")).cloned().collect::<Vec<String>>()
    };
    let pairs = [
        ("TextFields", "TextGiven"),
        ("GradientFields", "GradientGiven"),
        ("GradientBits", "GradientBitsGiven"),
        ("BodyFields", "FieldsGiven"),
        ("BodyAnswer", "BodyGiven"),
        ("BodyBitsAnswer", "BodyBitsGiven"),
    ];
    for (answer, given) in pairs {
        let of = |line: String, (old, new): &(&str, &str)| line.replace(&format!(": {old},"), &format!(": {new},"));
        let taken = |line: &String| pairs.iter().fold(line.replace(": bool,", ": u8,"), of);
        assert_eq!(fields(given), fields(answer).iter().map(taken).collect::<Vec<String>>(), "{given}");
    }
}

/// The comparison is worth something only if it sees a change: each edit of ffi.rs, a parameter's or field's type, name or place, must
/// make a difference to what is compared.
#[test]
fn edits_of_the_declarations_are_seen() {
    let rust = text(RUST);
    let edits = [
        ("at: usize, release: u64) -> TextAnswer", "at: usize, release: usize) -> TextAnswer"),
        ("at: usize, release: u64) -> TextAnswer", "release: u64, at: usize) -> TextAnswer"),
        ("at: usize, release: u64) -> TextAnswer", "at: usize, release: u64) -> HandleAnswer"),
        ("at: usize, release: u64) -> TextAnswer", "at: usize) -> TextAnswer"),
        ("at: usize, end: usize) -> TextAnswer", "at: usize, end: u32) -> TextAnswer"),
        ("at: usize, default: f64)", "at: usize, default: u64)"),
        ("    pub place: usize,\n    pub source: u8,\n", "    pub place: usize,\n    pub source: u16,\n"),
        ("    pub place: usize,\n    pub source: u8,\n", "    pub place: usize,\n"),
        ("    pub ltype_scale: f64,\n", "    pub ltype_scale: u64,\n"),
        ("    pub has_color_rgb: bool,\n    pub color_rgb: u32,\n", "    pub color_rgb: u32,\n    pub has_color_rgb: bool,\n"),
        ("    pub invisibility: i16,\n", "    pub invisibility: u16,\n"),
        ("at: usize, release: u64) -> PrefixAnswer", "at: usize, release: u64) -> PrefixBitsAnswer"),
        ("    pub place: usize,\n    pub source: u8,\n", "    pub source: u8,\n    pub place: usize,\n"),
        ("numbers_used: usize, num_seed_points: usize, length: usize", "num_seed_points: usize, numbers_used: usize, length: usize"),
        ("colors: [GradientColor; 16]", "colors: [GradientColor; 15]"),
        ("colors: [GradientColorBits; 16]", "colors: [GradientColor; 16]"),
        (" start: usize,\n        release: u64,\n        numbers: *mut f64,\n        numbers_length: usize,\n", " start: usize,\n        release: u64,\n        numbers: *mut f64,\n"),
        ("pub fn dwg_hatch_decode_bits(\n        main: *const u8", "pub fn dwg_hatch_decode_bits(\n        main: *mut u8"),
        ("pub solid_fill: u8,\n", "pub solid_fill: bool,\n"),
        ("    pub padded: bool,\n    pub position: usize,\n", "    pub position: usize,\n    pub padded: bool,\n"),
        ("    pub padded: bool,\n", ""),
        ("    pub padded: u8,\n", "    pub padded: bool,\n"),
        ("    pub name: TextGiven,\n", "    pub name: TextFields,\n"),
        ("words_length: usize,\n        numbers: *mut f64,", "words_length: usize,\n        numbers: *const f64,"),
        ("        x: u64,\n        y: u64,\n", "        y: u64,\n        x: u64,\n"),
        ("units: *mut u16, units_length: usize)", "units: *const u16, units_length: usize)"),
        ("units: *mut u16, units_length: usize)", "units: *mut u32, units_length: usize)"),
        ("bytes: *mut u8, bytes_length: usize) -> ConversionAnswer", "bytes: *mut u8, bytes_length: usize) -> MoveAnswer"),
        ("    pub string_place: usize,\n    pub count: usize,\n", "    pub string_place: usize,\n    pub count: u32,\n"),
        ("dwg_hatch_measure(main: *const u8, main_length: usize, start: usize, release: u64)", "dwg_hatch_measure(main: *const u8, main_length: usize, release: u64, start: usize)"),
    ];
    for (old, new) in edits {
        assert!(rust.contains(old), "{old}");
        let edited = rust.replacen(old, new, 1);
        let same = functions(&edited, DECLARED) == functions(&rust, DECLARED) && structs(&edited) == structs(&rust);
        assert!(!same, "{old:?} may become {new:?} unseen");
    }
}

/// The constants of the C headers are the numbers that this library has: releases, code pages, the flags of paths, and the kinds of edges as a list of words
/// has them.
#[test]
fn the_headers_constants_are_the_librarys() {
    use dwg_hatch::{CodePage, HatchEdge, Point2D, Release};
    let folder = concat!(env!("CARGO_MANIFEST_DIR"), "/include");
    let headers = ["dwg_hatch.h", "dwg_hatch_codes.h", "dwg_hatch_texts.h"].map(|name| text(&format!("{folder}/{name}"))).concat();
    let constants: Vec<&str> = lines(&headers).into_iter().filter(|line| line.starts_with("DWG_")).collect();
    let has = |name: &str, number: u64| {
        let constant = format!("DWG_{name} = {number}");
        assert!(constants.iter().any(|line| line.split([',', '/']).next().map(str::trim) == Some(constant.as_str())), "{constant}");
    };
    for release in Release::ALL {
        has(release.name(), release.number());
        let line = lines(&headers).into_iter().find(|line| line.starts_with(&format!("DWG_{release} "))).expect("a release");
        assert!(line.contains(release.signature()), "{line}");
    }
    for page in CodePage::ALL {
        has(&format!("CODE_PAGE_{}", page.number()), u64::from(page.number()));
    }
    let flags = [dwg_hatch::FLAG_EXTERNAL, dwg_hatch::FLAG_POLYLINE, dwg_hatch::FLAG_DERIVED, dwg_hatch::FLAG_TEXTBOX, dwg_hatch::FLAG_OUTERMOST];
    for (name, flag) in ["EXTERNAL", "POLYLINE", "DERIVED", "TEXTBOX", "OUTERMOST"].iter().zip(flags) {
        has(&format!("PATH_{name}"), u64::from(flag));
    }
    let point = Point2D { x: 0.0, y: 0.0 };
    let edges = [
        ("LINE", HatchEdge::Line { start: point, end: point }),
        ("ARC", HatchEdge::Arc { center: point, radius: 1.0, start_angle: 0.0, end_angle: 1.0, counter_clockwise: true }),
        ("ELLIPSE", HatchEdge::Ellipse { center: point, endpoint: point, axis_ratio: 1.0, start_angle: 0.0, end_angle: 1.0, counter_clockwise: true }),
        ("SPLINE", HatchEdge::Spline { degree: 3, is_rational: false, is_periodic: false, knots: vec![], control_points: vec![], fits: None }),
    ];
    for (name, edge) in edges {
        has(&format!("EDGE_{name}"), kind(edge));
    }
}

/// The kind of an edge in the list of words: behind the path's flags and the count of its edges.
fn kind(edge: dwg_hatch::HatchEdge) -> u64 {
    use dwg_hatch::{read_hatch, HatchPath, HatchPathSegments, Release, TypedHatch};
    let empty = read_hatch(&[0xa9, 0xaa, 0xa0], 0, Release::R2000).expect("a hatch of no path");
    let path = HatchPath { flags: 0, segments: HatchPathSegments::Edges(vec![edge]), num_boundary_handles: 0 };
    u64::from(TypedHatch { paths: vec![path], ..empty }.lists().0[2])
}
