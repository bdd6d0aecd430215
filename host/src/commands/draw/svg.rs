//! A picture's text: SVG with a group for each hatch, written as the hatches come. Its coordinates are pixels, so that a line has the same width
//! in a program that does not know `vector-effect`.

use std::io::{self, Write};

use dwg_hatch::Point2D;

use super::area::Area;
use super::figure::Figure;
use super::frame;
use super::gradients::{self, Frame};
use super::names::Names;
use super::patterns;
use super::pen::{escaped, stroke, Pen};
use super::view::{Extents, View};

/// Colours of the outlines and, lighter, of what they hold. Hatches take them in turn, so that neighbours differ.
const COLOURS: [&str; 6] = ["#1f5fa8", "#b3541e", "#2c7d4f", "#8a3c8c", "#8f7a12", "#b02a45"];

const STYLE: &str = "\
path { fill: none; stroke: currentColor; stroke-width: 1.5; stroke-linecap: round; stroke-linejoin: round; vector-effect: non-scaling-stroke }
.fill { fill: currentColor; fill-opacity: 0.22; fill-rule: evenodd; stroke: none }
.lined { fill-opacity: 0.08 }
.gradient { fill-opacity: 0.75 }
.pattern { stroke-width: 1 }
.dots { stroke-width: 2 }
.instead { stroke-dasharray: 6 4 }
.seed { stroke: #000 }
text { font: 16px sans-serif }
.name { font-size: 12px; stroke: #fff; stroke-width: 4; stroke-linejoin: round; paint-order: stroke }
.frame rect { fill: none; stroke: #888 }
.frame line { stroke: #444 }
.frame text { font-size: 11px; fill: #444; stroke: #fff; stroke-width: 3; stroke-linejoin: round; paint-order: stroke }
.bar line { stroke-width: 1.5 }";

/// A hatch that is smaller than this in the picture, in pixels, is a dot.
pub const DOT: f64 = 3.0;

/// A hatch of a picture, for messages.
#[derive(Clone, Copy, Debug)]
pub struct Seen {
    /// The number of its request line, if it has one.
    pub line: Option<u64>,
    /// Its extents.
    pub extents: Extents,
}

/// What a picture shows.
#[derive(Debug, Default)]
pub struct Shown {
    /// How many hatches it has.
    pub hatches: usize,
    /// How many of them are dots, and the first one.
    pub dots: usize,
    pub first_dot: Option<Seen>,
    /// How many hatches have no pattern lines, since there would be too many, and the first one.
    pub floods: usize,
    pub first_flood: Option<Seen>,
}

/// What a picture's coordinates are.
#[derive(Clone, Copy, Debug)]
pub struct Coordinates {
    /// What the numbers were narrowed to before they were drawn.
    pub precision: &'static str,
    /// The origin that they are counted from, if they were moved.
    pub origin: Option<Point2D>,
}

/// A picture that is being written.
pub struct Sheet<'a, Out> {
    out: Out,
    view: &'a View,
    origin: Option<Point2D>,
    /// How many strokes of pattern lines may still be drawn.
    strokes_left: usize,
    names: Names,
    shown: Shown,
}

impl<'a, Out: Write> Sheet<'a, Out> {
    /// Starts a picture; of pattern lines so many strokes at most are drawn.
    pub fn open(mut out: Out, name: &str, coordinates: Coordinates, view: &'a View, most_strokes: usize) -> io::Result<Sheet<'a, Out>> {
        let (Coordinates { precision, origin }, Point2D { x, y }) = (coordinates, view.corner());
        let moved = origin.map(|Point2D { x, y }| format!(", moved first: coordinates are counted from the point ({x:?}, {y:?})")).unwrap_or_default();
        let head = format!("Hatch outlines in {precision} precision{moved}. The point ({x:?}, {y:?}) of the drawing is this picture's upper left corner");
        out.write_all(opened(view.width, view.height, name, &format!("{head}, and a unit of it is {:?} pixels here.", view.scale)).as_bytes())?;
        Ok(Sheet { out, view, origin, strokes_left: most_strokes, names: Names::default(), shown: Shown::default() })
    }

    /// Draws the hatch with this number, if any of it is in view.
    pub fn add(&mut self, at: usize, figure: &Figure) -> io::Result<()> {
        let extents = figure.extents();
        if !extents.meets(&self.view.extents) {
            return Ok(());
        }
        let seen = Seen { line: figure.line, extents };
        self.count(&seen);
        let (colour, frame) = (COLOURS[at % COLOURS.len()], placed(self.view, &extents));
        writeln!(self.out, "<g color=\"{colour}\"><title>{}</title>", escaped(&figure.title))?;
        self.fill(at, figure, &frame)?;
        let (visible, names) = (inset(self.view, &frame), figure.names());
        let (is_lined, is_named) = (figure.pattern_lines().next().is_some() && self.strokes_left > 0, self.names.may_fit(&names, &visible));
        let mut area = Area::default();
        if is_lined || is_named {
            figure.outlines().for_each(|path| area.add(&path.runs, self.view));
        }
        if is_lined {
            self.pattern(figure, &seen, &area)?;
        }
        self.outlines(figure)?;
        if is_named {
            self.names.add(&names, colour, &area, &visible);
        }
        writeln!(self.out, "</g>")
    }

    /// Ends the picture, and gives what it shows.
    pub fn close(mut self) -> io::Result<Shown> {
        if self.shown.hatches == 0 {
            self.out.write_all(note("Nothing of the drawing lies in this view.").as_bytes())?;
        }
        write!(self.out, "{}{}</svg>\n", self.names.text(), frame::frame(self.view, self.origin))?;
        self.out.flush()?;
        Ok(self.shown)
    }

    fn count(&mut self, seen: &Seen) {
        let Extents { least, greatest } = seen.extents;
        self.shown.hatches += 1;
        if (greatest.x - least.x).max(greatest.y - least.y) * self.view.scale < DOT {
            self.shown.dots += 1;
            self.shown.first_dot.get_or_insert(*seen);
        }
    }

    /// The area, in its gradient if it has one.
    fn fill(&mut self, at: usize, figure: &Figure, frame: &Frame) -> io::Result<()> {
        let mut outlines = figure.outlines().peekable();
        if outlines.peek().is_none() {
            return Ok(());
        }
        let (id, name, gradient) = (format!("gradient-{}", at + 1), figure.gradient_name.as_deref(), figure.typed.hatch.gradient.as_ref());
        let gradient = gradient.and_then(|fill| gradients::definition(&id, fill, name, figure.is_mirrored, frame));
        let class = match &gradient {
            Some(_) => format!("fill gradient\" style=\"fill: url(#{id})"),
            None if figure.typed.hatch.solid_fill => "fill".to_string(),
            None => "fill lined".to_string(),
        };
        if let Some(definition) = gradient {
            writeln!(self.out, "<defs>{definition}</defs>")?;
        }
        write!(self.out, "<path class=\"{class}\" d=\"")?;
        let pen = Pen { view: self.view };
        for outline in outlines {
            self.out.write_all(pen.area(&outline.runs).as_bytes())?;
        }
        writeln!(self.out, "\"/>")
    }

    fn pattern(&mut self, figure: &Figure, seen: &Seen, area: &Area) -> io::Result<()> {
        let strokes = patterns::strokes(figure.pattern_lines(), figure.is_mirrored, area, self.view, self.strokes_left);
        let Some(strokes) = strokes else {
            self.shown.floods += 1;
            self.shown.first_flood.get_or_insert(*seen);
            return Ok(());
        };
        self.strokes_left -= strokes.len();
        // A dot has no length, and would hardly be seen if it were as narrow as a line.
        let (dots, lines): (Vec<_>, Vec<_>) = strokes.into_iter().partition(|[from, to]| from == to);
        for (class, strokes) in [("pattern", lines), ("pattern dots", dots)].into_iter().filter(|(_, strokes)| !strokes.is_empty()) {
            let data: String = strokes.into_iter().map(stroke).collect();
            writeln!(self.out, "<path class=\"{class}\" d=\"{data}\"><title>pattern lines</title></path>")?;
        }
        Ok(())
    }

    /// The outlines' lines and the seed points.
    fn outlines(&mut self, figure: &Figure) -> io::Result<()> {
        let pen = Pen { view: self.view };
        for path in figure.outlines() {
            let title = escaped(&path.title);
            let lines = |instead: bool| path.runs.iter().filter(|run| run.instead.is_some() == instead).map(|run| pen.line(run)).collect::<String>();
            let classes = [("", lines(false)), (" class=\"instead\"", lines(true))];
            let paths = classes.iter().filter(|(_, data)| !data.is_empty());
            let text: String = paths.map(|(class, data)| format!("<path{class} d=\"{data}\"><title>{title}</title></path>\n")).collect();
            self.out.write_all(text.as_bytes())?;
        }
        let crosses: String = figure.seeds().map(|seed| pen.cross(seed)).collect();
        if crosses.is_empty() {
            return Ok(());
        }
        writeln!(self.out, "<path class=\"seed\" d=\"{crosses}\"><title>seed points</title></path>")
    }
}

/// The picture where there is nothing to draw.
pub fn empty(name: &str, width: u32) -> String {
    let why = "Nothing to draw: no outlines were read.";
    opened(width, 60, name, why) + &note(why) + "</svg>\n"
}

fn note(text: &str) -> String {
    format!("<text x=\"20\" y=\"36\">{}</text>\n", escaped(text))
}

fn opened(width: u32, height: u32, name: &str, description: &str) -> String {
    let (name, description) = (escaped(name), escaped(description));
    format!(
        "<?xml version=\"1.0\" encoding=\"UTF-8\"?>\n\
        <svg xmlns=\"http://www.w3.org/2000/svg\" width=\"{width}\" height=\"{height}\" viewBox=\"0 0 {width} {height}\">\n\
        <title>{name}</title>\n<desc>{description}</desc>\n<style>\n{STYLE}\n</style>\n\
        <rect width=\"{width}\" height=\"{height}\" fill=\"#fff\"/>\n"
    )
}

/// Extents in the picture.
fn placed(view: &View, extents: &Extents) -> Frame {
    let Extents { least, greatest } = extents;
    Frame { least: view.place(Point2D { x: least.x, y: greatest.y }), greatest: view.place(Point2D { x: greatest.x, y: least.y }) }
}

/// The part of a box that is seen, without the picture's edges.
fn inset(view: &View, frame: &Frame) -> Frame {
    const EDGE: f64 = 8.0;
    let [width, height] = [view.width, view.height].map(f64::from);
    let least = Point2D { x: frame.least.x.max(EDGE), y: frame.least.y.max(EDGE) };
    Frame { least, greatest: Point2D { x: frame.greatest.x.min(width - EDGE), y: frame.greatest.y.min(height - EDGE) } }
}
