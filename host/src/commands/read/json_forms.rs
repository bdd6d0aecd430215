//! Hatches, prefixes and refusals as JSON objects. docs/JSON.md has the fields.

use dwg_hatch::{
    CommonEntityBits, Fits, GradientColor, GradientFill, Hatch, HatchEdge, HatchPath, HatchPathSegments, Name, PatternLine, Point2D,
    Refusal, Source, Text, TypedHatch,
};

use crate::commands::input::{Entry, Item};
use crate::commands::spelling::Spelling;
use crate::protocol::request::Strings;
use super::json::{array, double, object, or_null, string};
use super::measures::{self, Measures};
use super::Wanted;

/// A field of an object.
type Field = (&'static str, String);

/// What was asked for, the fields that all objects start with.
fn asked(item: &Item) -> Vec<Field> {
    let (request, release, start, payload) = match &item.entry {
        Entry::Hatch(hatch) => (if hatch.strings.is_some() { "hatchs" } else { "hatch" }, hatch.release, hatch.start, &hatch.payload),
        Entry::Prefix(prefix) => ("prefix", prefix.release, prefix.start, &prefix.payload),
    };
    let mut fields = vec![
        ("origin", string(&item.origin)),
        ("request", string(request)),
        ("release", release.to_string()),
        ("start", start.to_string()),
        ("payload_bits", payload.bits().to_string()),
    ];
    if let Entry::Hatch(hatch) = &item.entry {
        let reader = |strings: &Strings| {
            let bits = strings.payload.bits().to_string();
            object([("start", strings.start.to_string()), ("end", strings.end.to_string()), ("payload_bits", bits)])
        };
        fields.push(("strings", or_null(hatch.strings.as_ref().map(reader))));
    }
    fields
}

/// A refusal.
pub fn refusal(item: &Item, refusal: &Refusal) -> String {
    let parts = object([
        ("number", refusal.number().to_string()),
        ("meaning", string(refusal.meaning())),
        ("advice", string(refusal.advice())),
        ("place", refusal.place.to_string()),
        ("second_place", refusal.second_place.to_string()),
    ]);
    object(asked(item).into_iter().chain([("refusal", parts)]))
}

/// A prefix.
pub fn prefix(item: &Item, data: &CommonEntityBits, place: usize) -> String {
    let number = |value: Option<u32>| or_null(value.map(|value| value.to_string()));
    let fields = [
        ("place", place.to_string()),
        ("raw_mode", data.raw_mode.to_string()),
        ("mode", string(&format!("{:?}", data.mode))),
        ("num_reactors", data.num_reactors.to_string()),
        ("no_xdictionary", data.no_xdictionary.to_string()),
        ("binary_chain", data.binary_chain.to_string()),
        ("is_on_layer", data.is_on_layer.to_string()),
        ("non_fixed_ltype", data.non_fixed_ltype.to_string()),
        ("plotstyle_flag", data.plotstyle_flag.to_string()),
        ("material_flag", data.material_flag.to_string()),
        ("shadow_flags", data.shadow_flags.to_string()),
        ("invisibility", data.invisibility.to_string()),
        ("nolinks", data.nolinks.to_string()),
        ("color_raw", data.color_raw.to_string()),
        ("color_rgb", number(data.color_rgb)),
        ("color_alpha", number(data.color_alpha)),
        ("ltype_scale", double(data.ltype_scale)),
        ("ltype_flags", data.ltype_flags.to_string()),
        ("visual_style_flags", array(data.visual_style_flags.map(|flag| flag.to_string()))),
        ("lineweight", data.lineweight.to_string()),
        ("had_graphics", data.had_graphics.to_string()),
        ("had_extended_data", data.had_extended_data.to_string()),
        ("data_end_bits", number(data.data_end_bits)),
    ];
    object(asked(item).into_iter().chain(fields))
}

/// A hatch; the code page that its names are spelt by and the origin that it was moved to, if they were asked for.
pub fn hatch(item: &Item, typed: &TypedHatch<u64>, wanted: &Wanted) -> String {
    let (Hatch { gradient, places, .. }, spelling) = (&typed.hatch, wanted.spelling);
    let fill = gradient.as_ref().zip(typed.gradient_name.as_ref()).map(|(fill, name)| gradient_fill(fill, text(&fill.name, name, spelling)));
    let first = [
        ("places", object([("main", places.main.to_string()), ("string", places.string.to_string())])),
        ("gradient", or_null(fill)),
    ];
    let page = spelling.0.map(|page| ("code_page", page.number().to_string()));
    let moved = wanted.origin.map(|Point2D { x, y }| ("moved_origin", array([x, y].map(|number| double(number.to_bits())))));
    let record = record(&typed.hatch, text(&typed.hatch.pattern_name, &typed.pattern_name, spelling));
    let last = [
        ("paths", array(typed.paths.iter().map(path))),
        ("pattern_lines", array(typed.pattern_lines.iter().map(pattern_line))),
        ("seed_points", points(&typed.seed_points)),
    ];
    object(asked(item).into_iter().chain(page).chain(first).chain(moved).chain(record).chain(last))
}

/// The fields of a hatch's record, with its name's text.
fn record(hatch: &Hatch<u64>, name: String) -> [Field; 13] {
    [
        ("elevation", double(hatch.elevation)),
        ("extrusion", array(hatch.extrusion.map(double))),
        ("pattern_name", name),
        ("solid_fill", hatch.solid_fill.to_string()),
        ("associative", hatch.associative.to_string()),
        ("pattern_style", hatch.pattern_style.to_string()),
        ("pattern_type", hatch.pattern_type.to_string()),
        ("pattern_angle", double(hatch.pattern_angle)),
        ("pattern_scale", double(hatch.pattern_scale)),
        ("pattern_double", hatch.pattern_double.to_string()),
        ("pixel_size", double(hatch.pixel_size)),
        ("words_used", hatch.words_used.to_string()),
        ("numbers_used", hatch.numbers_used.to_string()),
    ]
}

fn gradient_fill(fill: &GradientFill<u64>, name: String) -> String {
    object([
        ("angle", double(fill.angle)),
        ("shift", double(fill.shift)),
        ("is_single_color", fill.is_single_color.to_string()),
        ("tint", double(fill.tint)),
        ("colors", array(fill.colors.iter().map(color))),
        ("name", name),
    ])
}

fn color(color: &GradientColor<u64>) -> String {
    object([
        ("unknown_double", double(color.unknown_double)),
        ("unknown_short", color.unknown_short.to_string()),
        ("rgb", color.rgb.to_string()),
        ("ignored_color_byte", color.ignored_color_byte.to_string()),
    ])
}

/// Where a text lies, whether it is padded, its units in hexadecimal, and its characters if it is known which they are.
fn text(text: &Text, name: &Name, spelling: Spelling) -> String {
    let source = match text.source {
        Source::None => "none",
        Source::Main => "main",
        Source::String => "string",
    };
    object([
        ("source", string(source)),
        ("width", text.width.to_string()),
        ("position", text.position.to_string()),
        ("count", text.count.to_string()),
        ("padded", text.padded.to_string()),
        ("units", units(name)),
        ("string", or_null(spelling.of(name).map(|characters| string(&characters)))),
    ])
}

/// The units of a name in hexadecimal: two digits each, or four.
pub fn units(name: &Name) -> String {
    let digits: String = match name {
        Name::Bytes(bytes) => bytes.iter().map(|unit| format!("{unit:02x}")).collect(),
        Name::Characters(characters) => characters.encode_utf16().map(|unit| format!("{unit:04x}")).collect(),
    };
    string(&digits)
}

fn path(path: &HatchPath<u64>) -> String {
    let segments = match &path.segments {
        HatchPathSegments::Polyline { has_bulge, is_closed, vertices } => {
            let vertices = vertices.iter().map(|vertex| point_and(vertex.point, vertex.bulge));
            let fields = [("has_bulge", has_bulge.to_string()), ("is_closed", is_closed.to_string()), ("vertices", array(vertices))];
            ("polyline", object(fields))
        }
        HatchPathSegments::Edges(edges) => ("edges", array(edges.iter().map(edge))),
    };
    let handles = ("num_boundary_handles", path.num_boundary_handles.to_string());
    object([("flags", path.flags.to_string()), segments, handles, ("computed", or_null(measures::measures(path).map(computed)))])
}

/// What the body does not have: the host computes it.
fn computed(measures: Measures) -> String {
    object([("area", double(measures.area.to_bits())), ("length", double(measures.length.to_bits()))])
}

fn edge(edge: &HatchEdge<u64>) -> String {
    match edge {
        HatchEdge::Line { start, end } => object([("kind", string("line")), ("start", point(start)), ("end", point(end))]),
        HatchEdge::Arc { center, radius, start_angle, end_angle, counter_clockwise } => object([
            ("kind", string("arc")),
            ("center", point(center)),
            ("radius", double(*radius)),
            ("start_angle", double(*start_angle)),
            ("end_angle", double(*end_angle)),
            ("counter_clockwise", counter_clockwise.to_string()),
        ]),
        HatchEdge::Ellipse { center, endpoint, axis_ratio, start_angle, end_angle, counter_clockwise } => object([
            ("kind", string("ellipse")),
            ("center", point(center)),
            ("endpoint", point(endpoint)),
            ("axis_ratio", double(*axis_ratio)),
            ("start_angle", double(*start_angle)),
            ("end_angle", double(*end_angle)),
            ("counter_clockwise", counter_clockwise.to_string()),
        ]),
        HatchEdge::Spline { degree, is_rational, is_periodic, knots, control_points, fits } => object([
            ("kind", string("spline")),
            ("degree", degree.to_string()),
            ("is_rational", is_rational.to_string()),
            ("is_periodic", is_periodic.to_string()),
            ("knots", array(knots.iter().map(|knot| double(*knot)))),
            ("control_points", array(control_points.iter().map(|control| point_and(control.point, control.weight)))),
            ("fits", or_null(fits.as_ref().map(fit_points))),
        ]),
    }
}

fn fit_points(fits: &Fits<u64>) -> String {
    let (start, end) = (point(&fits.start_tangent), point(&fits.end_tangent));
    object([("fit_points", points(&fits.fit_points)), ("start_tangent", start), ("end_tangent", end)])
}

fn pattern_line(line: &PatternLine<u64>) -> String {
    object([
        ("angle", double(line.angle)),
        ("origin", point(&line.origin)),
        ("offset", point(&line.offset)),
        ("dashes", array(line.dashes.iter().map(|dash| double(*dash)))),
    ])
}

fn points(list: &[Point2D<u64>]) -> String {
    array(list.iter().map(point))
}

fn point(at: &Point2D<u64>) -> String {
    point_and(*at, None)
}

/// A point's coordinates and, if it is there, the double behind them.
fn point_and(at: Point2D<u64>, more: Option<u64>) -> String {
    array([at.x, at.y].into_iter().chain(more).map(double))
}
