//! A hatch that is drawn: its outlines as runs, its seed points and its titles. Runs are made when they are asked for, so that not all of a
//! hatch's are held at once.

use dwg_hatch::{HatchPath, HatchPathSegments, Name, PatternLine, Point2D, TypedHatch};

use super::patterns;
use super::runs::{self, Run, GREATEST};
use super::view::Extents;
use crate::commands::failure::{shown, Failure};
use crate::commands::input::Item;
use crate::commands::spelling::Spelling;
use crate::commands::written::counted;

/// A hatch that is drawn.
pub struct Figure {
    /// Where it was asked for, and its pattern's name.
    pub title: String,
    /// The number of its request line, if it has one.
    pub line: Option<u64>,
    /// The hatch.
    pub typed: TypedHatch,
    /// The name of its pattern, and of its gradient if it has one, as they are spelt.
    pub pattern_name: String,
    pub gradient_name: Option<String>,
    /// Whether its plane is seen from behind, and so the sign of each x is changed.
    pub is_mirrored: bool,
}

/// A boundary path that is drawn.
pub struct Outline {
    /// Which path it is, and what it is made of.
    pub title: String,
    /// Its runs, one at least.
    pub runs: Vec<Run>,
}

impl Figure {
    /// The hatch that was asked for.
    pub fn new(item: &Item, typed: TypedHatch, spelling: Spelling) -> Figure {
        let [x, y, z] = typed.hatch.extrusion;
        let is_mirrored = x == 0.0 && y == 0.0 && z < 0.0;
        let plane = match [x, y, z] == [0.0, 0.0, 1.0] {
            true => String::new(),
            false if is_mirrored => " (mirrored, since its extrusion points down)".to_string(),
            false => format!(" (in its own plane; its extrusion is {x:?}, {y:?}, {z:?})"),
        };
        let pattern_name = characters(&typed.pattern_name, spelling);
        let gradient_name = typed.gradient_name.as_ref().map(|name| characters(name, spelling));
        let title = format!("{}: {pattern_name}{plane}", item.origin);
        Figure { title, line: item.line, typed, pattern_name, gradient_name, is_mirrored }
    }

    /// The outlines that can be drawn.
    pub fn outlines(&self) -> impl Iterator<Item = Outline> + '_ {
        let numbered = self.typed.paths.iter().enumerate().map(|(at, path)| (at, path, self.runs(path)));
        let drawn = numbered.filter(|(_, _, runs)| !runs.is_empty() && runs.iter().all(Run::is_drawable));
        drawn.map(|(at, path, runs)| Outline { title: path_title(at, path, &runs), runs })
    }

    /// The seed points that can be drawn.
    pub fn seeds(&self) -> impl Iterator<Item = Point2D> + '_ {
        let seen = |seed: &Point2D| if self.is_mirrored { runs::mirrored(*seed) } else { *seed };
        self.typed.seed_points.iter().filter(|seed| is_drawable(seed)).map(seen)
    }

    /// The pattern lines that can be drawn.
    pub fn pattern_lines(&self) -> impl Iterator<Item = &PatternLine> {
        self.typed.pattern_lines.iter().filter(|line| patterns::is_drawable(line))
    }

    /// The extents of all that is drawn of it.
    pub fn extents(&self) -> Extents {
        let mut extents = Extents::default();
        self.outlines().for_each(|path| path.runs.iter().for_each(|run| run.widen(&mut extents)));
        self.seeds().for_each(|seed| extents.include(seed));
        extents
    }

    /// What may be written into it, the longer first: its line with the names of its pattern and its gradient, or less of them.
    pub fn names(&self) -> Vec<String> {
        let pattern = &self.pattern_name;
        let gradient = self.gradient_name.as_ref().map(|name| format!("{pattern}, {name}"));
        let names = gradient.into_iter().chain([pattern.clone()]);
        match self.line {
            Some(line) => names.map(|name| format!("{line}: {name}")).chain([line.to_string()]).collect(),
            None => names.collect(),
        }
    }

    /// What cannot be drawn, as a failure that names it; of many the first are named.
    pub fn left_out(&self) -> Result<(), Failure> {
        const NAMED: usize = 10;
        let names = self.undrawable();
        if names.is_empty() {
            return Ok(());
        }
        let named = names[..names.len().min(NAMED)].join(", ");
        let more = if names.len() > NAMED { format!(" and {} more", names.len() - NAMED) } else { String::new() };
        let (are, each) = if names.len() == 1 { ("is", "it") } else { ("are", "each") };
        let why = format!("a number of {each} is not finite, or above {GREATEST:e}");
        Err(Failure::Draw(format!("{named}{more} {are} left out, since {why}; the rest is drawn")))
    }

    fn undrawable(&self) -> Vec<String> {
        let paths = self.typed.paths.iter().map(|path| self.runs(path).iter().all(Run::is_drawable));
        let seeds = self.typed.seed_points.iter().map(is_drawable);
        let lines = self.typed.pattern_lines.iter().map(patterns::is_drawable);
        let bad = |(at, drawable): (usize, bool), what: &str| (!drawable).then(|| format!("{what} {}", at + 1));
        let named = paths.enumerate().filter_map(|path| bad(path, "path"));
        let named = named.chain(seeds.enumerate().filter_map(|seed| bad(seed, "seed point")));
        named.chain(lines.enumerate().filter_map(|line| bad(line, "pattern line"))).collect()
    }

    fn runs(&self, path: &HatchPath) -> Vec<Run> {
        let runs = runs::of_path(path);
        if self.is_mirrored { runs.iter().map(Run::mirrored).collect() } else { runs }
    }
}

fn is_drawable(seed: &Point2D) -> bool {
    seed.x.abs() <= GREATEST && seed.y.abs() <= GREATEST
}

/// A name's characters; where it is not known which its 8-bit units are, what cannot be shown is escaped.
fn characters(name: &Name, spelling: Spelling) -> String {
    match (name, spelling.of(name)) {
        (_, Some(characters)) => characters.into_owned(),
        (Name::Bytes(bytes), None) => shown(bytes),
        (Name::Characters(name), None) => name.clone(),
    }
}

fn path_title(at: usize, path: &HatchPath, runs: &[Run]) -> String {
    let made_of = match &path.segments {
        HatchPathSegments::Polyline { vertices, .. } => format!("polyline, {}", counted(vertices.len(), "point")),
        HatchPathSegments::Edges(edges) => counted(edges.len(), "edge").to_string(),
    };
    let mut instead: Vec<&str> = runs.iter().filter_map(|run| run.instead).collect();
    instead.dedup();
    let dashed = if instead.is_empty() { String::new() } else { format!("; dashed: {}", instead.join(", ")) };
    format!("path {}: {made_of}, flags {}{dashed}", at + 1, path.flags)
}
