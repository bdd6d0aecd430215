//! What stands at a picture's edges: coordinates of the drawing, and a scale bar.

use dwg_hatch::Point2D;

use super::pen::number;
use super::view::View;
use crate::commands::origin::written;

/// A picture smaller than this, in pixels, has no frame: it would hide what is drawn.
const LEAST_SIDE: u32 = 200;

/// About how wide a letter of the frame is, and how long its ticks are, in pixels.
const LETTER: f64 = 6.5;
const TICK: f64 = 6.0;

/// The least distance of coordinates, in pixels.
const LEAST_DISTANCE: f64 = 60.0;

/// The space at the lower edge that coordinates of x take.
const LOWER: f64 = 24.0;

/// The frame of a view, with the origin that its coordinates are counted from, if they were moved; or nothing where the picture is small.
pub fn frame(view: &View, origin: Option<Point2D>) -> String {
    if view.width < LEAST_SIDE || view.height < LEAST_SIDE {
        return String::new();
    }
    let [width, height] = [view.width, view.height].map(f64::from);
    let border = format!("<rect x=\"0.5\" y=\"0.5\" width=\"{}\" height=\"{}\"/>\n", number(width - 1.0), number(height - 1.0));
    let coordinates = [across(view), up(view), counted_from(view, origin)].concat();
    format!("<g class=\"frame\"><title>coordinates of the drawing, in its units</title>\n{border}{coordinates}</g>\n{}", bar(view))
}

/// Coordinates of x along the lower edge.
fn across(view: &View) -> String {
    let [width, height] = [view.width, view.height].map(f64::from);
    let (least, greatest) = (view.extents.least.x, view.extents.greatest.x);
    let step = step(view, least.abs().max(greatest.abs()));
    let mut text = String::new();
    for (value, shown) in ticks(least, greatest, step) {
        let (x, half) = ((value - least) * view.scale, LETTER * shown.len() as f64 / 2.0);
        // A coordinate that the edge would cut is left out.
        if x - half < 4.0 || x + half > width - 4.0 {
            continue;
        }
        text += &tick([x, height], [x, height - TICK]);
        text += &format!("<text x=\"{}\" y=\"{}\" text-anchor=\"middle\">{shown}</text>\n", number(x), number(height - TICK - 4.0));
    }
    text
}

/// Coordinates of y along the left edge.
fn up(view: &View) -> String {
    let height = f64::from(view.height);
    let (least, greatest) = (view.extents.least.y, view.extents.greatest.y);
    let mut text = String::new();
    for (value, shown) in ticks(least, greatest, step(view, 0.0)) {
        let y = (greatest - value) * view.scale;
        if y < 8.0 || y > height - LOWER {
            continue;
        }
        text += &tick([0.0, y], [TICK, y]);
        text += &format!("<text x=\"{}\" y=\"{}\">{shown}</text>\n", number(TICK + 3.0), number(y + 4.0));
    }
    text
}

/// The origin, below the scale bar.
fn counted_from(view: &View, origin: Option<Point2D>) -> String {
    let Some(origin) = origin else { return String::new() };
    let (right, text) = (number(f64::from(view.width) - 16.0), written(origin).replace(',', ", "));
    format!("<text x=\"{right}\" y=\"46\" text-anchor=\"end\">counted from {text}</text>\n")
}

fn tick([x1, y1]: [f64; 2], [x2, y2]: [f64; 2]) -> String {
    let [x1, y1, x2, y2] = [x1, y1, x2, y2].map(number);
    format!("<line x1=\"{x1}\" y1=\"{y1}\" x2=\"{x2}\" y2=\"{y2}\"/>\n")
}

/// The scale bar in the upper right corner: a round length, a fifth of the width at most. What a unit is stands not in a hatch.
fn bar(view: &View) -> String {
    let (length, decimals) = round_below(f64::from(view.width) / 5.0 / view.scale);
    let (pixels, right, y) = (length * view.scale, f64::from(view.width) - 16.0, 26.0);
    let (left, middle) = (right - pixels, right - pixels / 2.0);
    let lines = [tick([left, y], [right, y]), tick([left, y - 4.0], [left, y + 4.0]), tick([right, y - 4.0], [right, y + 4.0])].concat();
    let units = if length == 1.0 { "unit" } else { "units" };
    let text = format!("<text x=\"{}\" y=\"{}\" text-anchor=\"middle\">{length:.decimals$} {units}</text>\n", number(middle), number(y - 7.0));
    format!("<g class=\"frame bar\"><title>scale bar, in the drawing's units</title>\n{lines}{text}</g>\n")
}

/// The greatest of 1, 2 and 5 times a power of ten that is not above a length, and the decimals that it needs.
fn round_below(length: f64) -> (f64, usize) {
    let power = length.log10().floor();
    let round = [5.0, 2.0, 1.0].map(|digit| digit * 10f64.powf(power));
    let decimals = if power < 0.0 { -power as usize } else { 0 };
    // A length just above a power of ten may be rounded to below it.
    (round.into_iter().find(|round| *round <= length).unwrap_or(round[2]), decimals)
}

/// How far coordinates are from one another, in units: as near as they can be read, if the greatest of them is written beside one another.
fn step(view: &View, greatest: f64) -> f64 {
    let units = |pixels: f64| pixels / view.scale;
    let (_, decimals) = round_below(units(LEAST_DISTANCE));
    let letters = format!("-{greatest:.decimals$}").len() as f64;
    let least = units(LEAST_DISTANCE.max(if greatest == 0.0 { 0.0 } else { (letters + 3.0) * LETTER }));
    let (below, _) = round_below(least);
    // The next one above it.
    let digit = (below / 10f64.powf(below.log10().floor())).round();
    if below >= least { below } else if digit == 2.0 { below * 2.5 } else { below * 2.0 }
}

/// The multiples of a step from one coordinate to another, and as they are written.
fn ticks(least: f64, greatest: f64, step: f64) -> Vec<(f64, String)> {
    let (_, decimals) = round_below(step);
    let [first, last] = [(least / step).ceil(), (greatest / step).floor()];
    let count = (last - first + 1.0).clamp(0.0, 10_000.0) as usize;
    let multiple = |at: usize| (first + at as f64) * step;
    let shown = |value: f64| if value == 0.0 { "0".to_string() } else { format!("{value:.decimals$}") };
    (0..count).map(|at| (multiple(at), shown(multiple(at)))).collect()
}

#[cfg(test)]
mod tests {
    use super::*;
    use crate::commands::draw::view::Extents;

    fn view(text: &str, width: u32) -> View {
        View::new(Extents::parse(text).expect("a view"), width)
    }

    #[test]
    fn round_lengths() {
        assert_eq!([99.0, 100.0, 19.9, 4.99, 0.3, 0.05, 1e-9].map(round_below).map(|round| round.0), [50.0, 100.0, 10.0, 2.0, 0.2, 0.05, 1e-9]);
        assert_eq!([99.0, 0.3, 0.05].map(|length| round_below(length).1), [0, 1, 2]);
    }

    #[test]
    fn coordinates_are_multiples_of_a_round_step() {
        let text = frame(&view("4650945,9230702,44,32", 700), None);
        for wanted in [">4650950<", ">4650960<", ">9230705<", ">9230710<", ">5 units<"] {
            assert!(text.contains(wanted), "{wanted}: {text}");
        }
        assert!(frame(&view("-1,-1,2,2", 1000), None).contains(">0<") && frame(&view("-1,-1,2,2", 1000), None).contains(">-0.4<"));
    }

    #[test]
    fn the_origin_is_told_where_hatches_were_moved() {
        let origin = Some(Point2D { x: 4_650_000.0, y: -9_230_000.5 });
        assert!(frame(&view("945,702,44,32", 700), origin).contains("<text x=\"684\" y=\"46\" text-anchor=\"end\">counted from 4650000, -9230000.5</text>"));
        assert!(!frame(&view("945,702,44,32", 700), None).contains("counted from"));
    }

    #[test]
    fn a_tick_lies_where_its_coordinate_is() {
        let text = frame(&view("0,0,100,100", 1000), None);
        assert!(text.contains("<line x1=\"200\" y1=\"1000\" x2=\"200\" y2=\"994\"/>\n<text x=\"200\" y=\"990\" text-anchor=\"middle\">20<"), "{text}");
        assert!(text.contains("<line x1=\"0\" y1=\"800\" x2=\"6\" y2=\"800\"/>\n<text x=\"9\" y=\"804\">20<"), "{text}");
    }

    #[test]
    fn views_of_any_size_have_few_coordinates() {
        for text in ["0,0,1e-9,1e-9", "1e15,1e15,1e5,1e5", "-1e15,-1e15,1e15,1e15", "0,0,1e-9,1", "4650000,0,0.001,0.001"] {
            let count = frame(&view(text, 1000), None).matches("<text").count();
            assert!((1..=2000).contains(&count), "{text}: {count}");
        }
        assert_eq!(frame(&view("0,0,10,1", 1000), None), "");
    }
}
