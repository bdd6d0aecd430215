//! A hatch body, with a string reader and without.

use crate::bitcursor::BitCursor;
use crate::entities::hatch::{self, GradientFill, Hatch, HatchEdge, HatchPathSegments};
use crate::lists::Lists;
use crate::refusal::{self, Refusal};
use crate::request::{self, HatchRequest};
use crate::show::{self, Show};
use crate::string_stream::{self, StringReader, StringStream};
use crate::text_place::{self, HatchTexts};
use crate::version::Version;

pub struct Reading {
    hatch: Hatch,
    texts: HatchTexts,
    pub lists: Lists,
    main_place: usize,
}

impl Reading {
    /// What the body holds, for a choice of requests that shows all of it.
    pub fn features(&self) -> Vec<&'static str> {
        let mut found = Vec::new();
        for path in &self.hatch.paths {
            match &path.segments {
                HatchPathSegments::Polyline { has_bulge: true, .. } => found.push("bulge"),
                HatchPathSegments::Polyline { .. } => found.push("polyline"),
                HatchPathSegments::Edges(edges) => found.extend(edges.iter().map(edge_feature)),
            }
        }
        let dashed = self.hatch.pattern_lines.iter().any(|line| !line.dashes.is_empty());
        let others = [
            ("gradient", self.hatch.gradient.is_some()),
            ("lines", !self.hatch.pattern_lines.is_empty()),
            ("dashes", dashed),
            ("pixel size", self.hatch.pixel_size != 0.0),
            ("seeds", !self.hatch.seed_points.is_empty()),
        ];
        found.extend(others.iter().filter(|(_, here)| *here).map(|(name, _)| *name));
        found
    }
}

fn edge_feature(edge: &HatchEdge) -> &'static str {
    match edge {
        HatchEdge::Line { .. } => "line",
        HatchEdge::Arc { .. } => "arc",
        HatchEdge::Ellipse { .. } => "ellipse",
        HatchEdge::Spline { degree, .. } if *degree > i32::MAX as u32 => "spline of a large degree",
        HatchEdge::Spline { fit_points, .. } if !fit_points.is_empty() => "fits",
        HatchEdge::Spline { weights, .. } if !weights.is_empty() => "weights",
        HatchEdge::Spline { .. } => "spline",
    }
}

pub fn answer(request: &HatchRequest, show: Show) -> String {
    match read(request) {
        Ok(read) => reading(&read, show),
        Err(refusal) => refusal.line(),
    }
}

/// Document 01's order: 9, 10 (main, then string), the string start, the main start, fields, 11.
pub fn read(request: &HatchRequest) -> Result<Reading, Refusal> {
    let string_start = request.reader.as_ref().map_or(0, |reader| reader.start);
    let at_the_starts = |number| Refusal::new(number, request.start, string_start);
    let Some(version) = request::version_of(request.release) else {
        return Err(at_the_starts(9)); // added by document 01
    };
    if request.main.too_long() || request.reader.as_ref().is_some_and(|reader| reader.payload.too_long()) {
        return Err(at_the_starts(10)); // added by document 01
    }
    check_string_start(request)?;
    let Some(c) = refusal::cursor_at(request.main.bytes(), request.start) else {
        return Err(at_the_starts(1)); // added by document 01
    };
    let reading = decode(request, c, version)?;
    match &request.lent {
        Some(lent) if short(&reading.lists, lent) => {
            // added by document 01
            Err(Refusal::new(11, reading.main_place as u64, reading.texts.string_place as u64))
        }
        _ => Ok(reading),
    }
}

fn short(lists: &Lists, lent: &request::Lent) -> bool {
    lent.words < lists.words.len() as u64 || lent.numbers < lists.numbers.len() as u64
}

/// The Rust's own seek fails at the string payload's end, which is document 01's second place; that it comes before
/// the main start, with the first place at that start, is document 01's.
fn check_string_start(request: &HatchRequest) -> Result<(), Refusal> {
    let Some(reader) = &request.reader else {
        return Ok(());
    };
    let mut cursor = BitCursor::new(reader.payload.bytes());
    match string_stream::seek(&mut cursor, reader.start as usize) {
        Ok(()) => Ok(()),
        Err(error) => {
            let number = refusal::number_of(&error);
            Err(Refusal::new(number, request.start, cursor.position_bits() as u64))
        }
    }
}

/// The Rust's decoder, its places after it, and the second walk for the texts.
fn decode(request: &HatchRequest, mut c: BitCursor<'_>, version: Version) -> Result<Reading, Refusal> {
    let start = c.clone();
    let mut reader = request.reader.as_ref().map(|reader| {
        let stream = StringStream { start_bit: reader.start as usize, end_bit: reader.end as usize };
        StringReader::new(reader.payload.bytes(), stream).expect("a string start that was checked")
    });
    let decoded = hatch::decode_with_strings_for_the_oracle(&mut c, version, reader.as_mut());
    let string_place = reader.as_ref().map_or(0, StringReader::position_bits);
    let hatch = decoded.map_err(|error| {
        Refusal::new(refusal::number_of(&error), c.position_bits() as u64, string_place as u64)
    })?;
    let strings = request.reader.as_ref().map(|reader| {
        let cursor = refusal::cursor_at(reader.payload.bytes(), reader.start).expect("a string start that was checked");
        (cursor, reader.end as usize)
    });
    let texts = text_place::hatch_texts(start, strings, version).expect("a second walk of what was read");
    check(&hatch, &texts, string_place);
    Ok(Reading { lists: Lists::of(&hatch), hatch, texts, main_place: c.position_bits() })
}

/// The oracle's check of itself: the second walk agrees with the Rust.
fn check(hatch: &Hatch, texts: &HatchTexts, string_place: usize) {
    assert_eq!(texts.string_place, string_place, "the second walk of the texts ends elsewhere");
    text_place::check(&texts.pattern, &hatch.pattern_name);
    if let (Some(text), Some(gradient)) = (&texts.gradient, &hatch.gradient) {
        text_place::check(text, &gradient.name);
    }
}

fn reading(reading: &Reading, show: Show) -> String {
    let (hatch, texts, lists) = (&reading.hatch, &reading.texts, &reading.lists);
    let bit = u8::from;
    let extrusion = [hatch.extrusion.x, hatch.extrusion.y, hatch.extrusion.z];
    let fields = [
        format!("ok {} {} {}", reading.main_place, texts.string_place, gradient(hatch, texts, show)),
        format!("elev={} ext={}", show.double(hatch.elevation), show.doubles(&extrusion)),
        format!("name={} solid={}", show::text(&texts.pattern), bit(hatch.solid_fill)),
        format!("assoc={} style={}", bit(hatch.associative), hatch.pattern_style),
        format!("type={} pangle={}", hatch.pattern_type, show.double(hatch.pattern_angle)),
        format!("pscale={} pdouble={}", show.double(hatch.pattern_scale), bit(hatch.pattern_double)),
        format!("pixel={} npaths={}", show.double(hatch.pixel_size), hatch.paths.len()),
        format!("nlines={} nseeds={}", hatch.pattern_lines.len(), hatch.seed_points.len()),
        format!("nw={} nn={}", lists.words.len(), lists.numbers.len()),
        format!("words={}", show::list(&lists.words, ",", u32::to_string)),
        format!("nums={}", show.doubles(&lists.numbers)),
    ];
    fields.join(" ")
}

/// Absent (releases 1 and 2, or flag 0): all zero, and no name, which is not padded either.
fn gradient(hatch: &Hatch, texts: &HatchTexts, show: Show) -> String {
    let zero = GradientFill {
        angle: 0.0,
        shift: 0.0,
        is_single_color: 0,
        tint: 0.0,
        colors: Vec::new(),
        name: String::new(),
    };
    let fill = hatch.gradient.as_ref().unwrap_or(&zero);
    let name = match (&hatch.gradient, &texts.gradient) {
        (Some(_), Some(text)) => show::text(text),
        _ => "-:0:0:0:-:0".to_string(),
    };
    let colours = show::list(&fill.colors, ";", |colour| {
        let double = show.double(colour.unknown_double);
        format!("{}/{}/{}/{}", double, colour.unknown_short, colour.rgb, colour.ignored_color_byte)
    });
    let head = format!("grad={} gangle={}", u8::from(hatch.gradient.is_some()), show.double(fill.angle));
    let middle = format!("gshift={} gsingle={}", show.double(fill.shift), fill.is_single_color);
    let count = fill.colors.len();
    format!("{head} {middle} gtint={} gn={count} gcols={colours} gname={name}", show.double(fill.tint))
}
