//! Hatches and prefixes as a person reads them: a line for each thing that they hold. Each double has all its digits.

use std::fmt::{Debug, Display};

use dwg_hatch::{
    CommonEntityBits, GradientFill, Hatch, HatchEdge, HatchPath, HatchPathSegments, Name, PatternLine, Point2D, Release, Source, Text, TypedHatch,
};

use super::measures;
use super::page::Page;
use super::Wanted;
use crate::commands::input::Item;
use crate::commands::spelling::Spelling;
use crate::commands::written::{counted, grouped, listed, written};
use crate::protocol::payload::Payload;
use crate::protocol::request::{HatchRequest, PrefixRequest};

const STYLES: [&str; 3] = ["odd parity", "outermost", "whole area"];
const TYPES: [&str; 3] = ["user-defined", "predefined", "custom"];
const LINETYPES: [&str; 4] = ["the layer's", "the block's", "continuous", "by its handle"];
const FLAGS: [(u32, &str); 5] = [
    (dwg_hatch::FLAG_EXTERNAL, "external"),
    (dwg_hatch::FLAG_POLYLINE, "polyline"),
    (dwg_hatch::FLAG_DERIVED, "derived"),
    (dwg_hatch::FLAG_TEXTBOX, "textbox"),
    (dwg_hatch::FLAG_OUTERMOST, "outermost"),
];

/// A hatch, each line with its end.
pub fn hatch(item: &Item, request: &HatchRequest, typed: &TypedHatch<u64>, wanted: &Wanted) -> String {
    let hatch = &typed.hatch;
    let mut page = titled(item, "hatch", request.release, [request.start, hatch.places.main], &request.payload);
    if let Some(strings) = &request.strings {
        let (start, end, length) = (strings.start, strings.end, grouped(strings.payload.bits()));
        page.line("strings", format_args!("bits {start} to {}, of bits {start} to {end}, of {length}", hatch.places.string));
    }
    if let Some(Point2D { x, y }) = wanted.origin {
        page.line("origin", format_args!("({x:?}, {y:?}), taken off each coordinate below"));
    }
    if let Some((fill, name)) = hatch.gradient.as_ref().zip(typed.gradient_name.as_ref()) {
        gradient(&mut page, fill, &shown(name, wanted.spelling));
    }
    record(&mut page, hatch, &shown(&typed.pattern_name, wanted.spelling));
    if typed.paths.iter().any(|path| path.flags & dwg_hatch::FLAG_DERIVED != 0) {
        page.line("pixel", format_args!("size {}", double(hatch.pixel_size)));
    }
    for (at, path) in typed.paths.iter().enumerate() {
        page.numbered("path", at, format_args!("{}; flags {}; boundary handles: {}", made_of(path), flags(path.flags), path.num_boundary_handles));
        extents(&mut page, path);
        computed(&mut page, path);
    }
    typed.pattern_lines.iter().enumerate().for_each(|(at, line)| pattern_line(&mut page, at, line));
    typed.seed_points.iter().enumerate().for_each(|(at, seed)| page.numbered("seed", at, format_args!("{}", point(seed))));
    page.text()
}

/// A prefix, each line with its end.
pub fn prefix(item: &Item, request: &PrefixRequest, data: &CommonEntityBits, place: usize) -> String {
    let [full, face, edge] = data.visual_style_flags.map(yes);
    let linetype = LINETYPES[usize::from(data.ltype_flags & 3)];
    let [rgb, alpha] = [data.color_rgb, data.color_alpha].map(hexadecimal);
    let mut page = titled(item, "prefix", request.release, [request.start, place], &request.payload);
    page.line("mode", format_args!("{} ({:?}); reactors: {}", data.raw_mode, data.mode, data.num_reactors));
    page.line("color", format_args!("{}; rgb {rgb}, alpha {alpha}", data.color_raw));
    page.line("linetype", format_args!("{} ({linetype}), scale {}", data.ltype_flags, double(data.ltype_scale)));
    page.line("", format_args!("not fixed: {}; on the layer: {}", yes(data.non_fixed_ltype), yes(data.is_on_layer)));
    page.line("weight", format_args!("{} (a code, no width); invisibility {}", data.lineweight, data.invisibility));
    page.line("flags", format_args!("plot style {}, material {}, shadow {}", data.plotstyle_flag, data.material_flag, data.shadow_flags));
    page.line("", format_args!("visual styles: full {full}, face {face}, edge {edge}"));
    page.line("links", format_args!("no dictionary: {}, no links: {}", yes(data.no_xdictionary), yes(data.nolinks)));
    page.line("", format_args!("binary chain: {}", yes(data.binary_chain)));
    page.line("passed", format_args!("XDATA: {}, graphics: {}", yes(data.had_extended_data), yes(data.had_graphics)));
    match data.data_end_bits {
        Some(bits) => page.line("data end", format_args!("bit {bits}")),
        None => page.line("data end", format_args!("none")),
    }
    page.text()
}

/// A page with its first line. The ends are written as an option takes them.
fn titled(item: &Item, kind: &str, release: u64, [start, end]: [usize; 2], payload: &Payload) -> Page {
    let name = Release::try_from(release).map_or("unknown", Release::name);
    let length = grouped(payload.bits());
    Page::titled(format_args!("{}: {kind}, release {release} ({name}), bits {start} to {end} of {length}", item.origin))
}

fn gradient(page: &mut Page, fill: &GradientFill<u64>, name: &impl Display) {
    let [angle, shift, tint] = [fill.angle, fill.shift, fill.tint].map(double);
    let (name, single) = (text(&fill.name, name), fill.is_single_color);
    page.line("gradient", format_args!("{name}; angle {angle}, shift {shift}, tint {tint}; single colour {single}"));
    for (at, color) in fill.colors.iter().enumerate() {
        let (number, short, byte) = (double(color.unknown_double), color.unknown_short, color.ignored_color_byte);
        page.numbered("color", at, format_args!("rgb {:#010x}; not named: {number}, {short}, {byte}", color.rgb));
    }
}

fn record(page: &mut Page, hatch: &Hatch<u64>, name: &impl Display) {
    let solid = if hatch.solid_fill { "solid" } else { "not solid" };
    let associative = if hatch.associative { "associative" } else { "not associative" };
    page.line("pattern", format_args!("{}; {solid}, {associative}", text(&hatch.pattern_name, name)));
    page.line("", format_args!("style {}, type {}", named(hatch.pattern_style, &STYLES), named(hatch.pattern_type, &TYPES)));
    if !hatch.solid_fill {
        let doubled = if hatch.pattern_double { "doubled" } else { "not doubled" };
        page.line("", format_args!("angle {}, scale {}, {doubled}", double(hatch.pattern_angle), double(hatch.pattern_scale)));
    }
    let [x, y, z] = hatch.extrusion.map(double);
    page.line("plane", format_args!("elevation {}, extrusion ({x}, {y}, {z})", double(hatch.elevation)));
    let (paths, lines) = (counted(hatch.num_paths, "path"), counted(hatch.num_pattern_lines, "pattern line"));
    let (seeds, words) = (counted(hatch.num_seed_points, "seed point"), counted(hatch.words_used, "word"));
    page.line("holds", format_args!("{paths}, {lines}, {seeds}; {words}, {}", counted(hatch.numbers_used, "number")));
}

/// A number and what it means, if it has a meaning.
fn named<'a>(number: u16, meanings: &'a [&str]) -> impl Display + 'a {
    written(move |f| match meanings.get(usize::from(number)) {
        Some(meaning) => write!(f, "{number} ({meaning})"),
        None => write!(f, "{number}"),
    })
}

/// A text by its name, where it lies, and whether it is padded.
fn text<'a>(text: &'a Text, name: &'a impl Display) -> impl Display + 'a {
    let payload = if text.source == Source::String { " of the string payload" } else { "" };
    let padded = if text.padded { ", padded" } else { "" };
    written(move |f| {
        let units = counted(text.count, "unit");
        write!(f, "{name} ({units} of {} bits at bit {}{payload}{padded})", text.width, text.position)
    })
}

/// A name's characters, or its units where it is not known which these are.
pub fn shown(name: &Name, spelling: Spelling) -> impl Display + '_ {
    written(move |f| match (spelling.of(name), name) {
        (Some(characters), _) => Debug::fmt(&characters, f),
        (None, Name::Bytes(bytes)) => write!(f, "bytes {bytes:02x?}"),
        (None, Name::Characters(characters)) => Debug::fmt(characters, f),
    })
}

/// What a path is made of.
fn made_of(path: &HatchPath<u64>) -> impl Display + '_ {
    written(|f| match &path.segments {
        HatchPathSegments::Polyline { has_bulge, is_closed, vertices } => {
            let bulges = if *has_bulge { "with bulges" } else { "without bulges" };
            write!(f, "polyline, {}, vertices: {}, {bulges}", if *is_closed { "closed" } else { "open" }, vertices.len())
        }
        HatchPathSegments::Edges(edges) if edges.is_empty() => f.write_str("no edges"),
        HatchPathSegments::Edges(edges) => write!(f, "{}: {}", counted(edges.len(), "edge"), edge_kinds(edges)),
    })
}

/// How many edges there are of each kind that there is.
fn edge_kinds(edges: &[HatchEdge<u64>]) -> impl Display {
    let mut counts = [("line", 0), ("arc", 0), ("ellipse", 0), ("spline", 0)];
    for edge in edges {
        let kind = match edge {
            HatchEdge::Line { .. } => 0,
            HatchEdge::Arc { .. } => 1,
            HatchEdge::Ellipse { .. } => 2,
            HatchEdge::Spline { .. } => 3,
        };
        counts[kind].1 += 1;
    }
    listed(counts.into_iter().filter(|count| count.1 > 0).map(|(name, count)| counted(count, name)))
}

/// Flags with the names of their values; what has no name is there as a number.
fn flags(flags: u32) -> impl Display {
    written(move |f| {
        write!(f, "{flags}")?;
        let mut before = " (";
        for (_, name) in FLAGS.iter().filter(|flag| flags & flag.0 != 0) {
            f.write_str(before)?;
            f.write_str(name)?;
            before = ", ";
        }
        let rest = FLAGS.iter().fold(flags, |rest, flag| rest & !flag.0);
        if rest != 0 {
            write!(f, "{before}{rest:#x}")?;
        }
        f.write_str(if flags == 0 { "" } else { ")" })
    })
}

/// The least and greatest coordinates of a path's points as they are given; arcs and bulges may reach beyond them.
fn extents(page: &mut Page, path: &HatchPath<u64>) {
    let points = path.points();
    let x = points.iter().map(|point| f64::from_bits(point.x));
    let y = points.iter().map(|point| f64::from_bits(point.y));
    if points.is_empty() {
        page.line("", format_args!("no points"));
    } else if x.clone().chain(y.clone()).any(f64::is_nan) {
        page.line("", format_args!("a coordinate is no number, so there are no extents"));
    } else {
        page.line("", format_args!("{}, x {}, y {}", counted(points.len(), "point"), span(x), span(y)));
    }
}

/// The least and the greatest of some numbers. Of 0.0 and -0.0 it is the first: `f64::min` leaves it to the compiler which of the two it gives.
fn span(numbers: impl Iterator<Item = f64> + Clone) -> impl Display {
    let least = numbers.clone().fold(f64::INFINITY, |least, number| if number < least { number } else { least });
    let greatest = numbers.fold(f64::NEG_INFINITY, |greatest, number| if number > greatest { number } else { greatest });
    written(move |f| write!(f, "{} to {}", double(least.to_bits()), double(greatest.to_bits())))
}

/// What the body does not have: the host computes it.
fn computed(page: &mut Page, path: &HatchPath<u64>) {
    let Some(measures) = measures::measures(path) else { return };
    let [area, length] = [measures.area, measures.length].map(|value| double(value.to_bits()));
    page.line("", format_args!("area {area}, length {length} (computed by the host, not proved)"));
}

fn pattern_line(page: &mut Page, at: usize, line: &PatternLine<u64>) {
    let (angle, origin, offset) = (double(line.angle), point(&line.origin), point(&line.offset));
    let before = if line.dashes.is_empty() { "no dashes" } else { "dashes " };
    let dashes = listed(line.dashes.iter().map(|dash| double(*dash)));
    page.numbered("line", at, format_args!("angle {angle}, origin {origin}, offset {offset}, {before}{dashes}"));
}

fn point(at: &Point2D<u64>) -> impl Display {
    let [x, y] = [at.x, at.y].map(double);
    written(move |f| write!(f, "({x}, {y})"))
}

/// A double with all its digits; of a NaN or an infinity its bits too.
fn double(bits: u64) -> impl Display {
    let value = f64::from_bits(bits);
    written(move |f| if value.is_finite() { Debug::fmt(&value, f) } else { write!(f, "{value} {bits:#018x}") })
}

/// A number of eight digits, if there is one.
fn hexadecimal(value: Option<u32>) -> impl Display {
    written(move |f| match value {
        Some(value) => write!(f, "{value:#010x}"),
        None => f.write_str("none"),
    })
}

fn yes(switch: bool) -> &'static str {
    if switch { "yes" } else { "no" }
}

#[cfg(test)]
mod tests {
    use super::*;

    #[test]
    fn of_equal_zeros_the_first_is_shown() {
        let shown = |numbers: &[f64]| span(numbers.iter().copied()).to_string();
        assert_eq!([shown(&[0.0, -0.0]), shown(&[-0.0, 0.0])], ["0.0 to 0.0", "-0.0 to -0.0"]);
        assert_eq!([shown(&[1.5, -0.0, 0.0, 2.5]), shown(&[-1.5, 0.0, -0.0, -0.0, -2.5])], ["-0.0 to 2.5", "-2.5 to 0.0"]);
        assert_eq!(shown(&[f64::INFINITY]), "inf 0x7ff0000000000000 to inf 0x7ff0000000000000");
    }
}
