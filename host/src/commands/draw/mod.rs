//! The command `draw`: the outlines of hatches as a picture.
//!
//! Outlines are drawn in each hatch's own plane, as its coordinates stand. Only where the extrusion points straight down they are mirrored, as they
//! are seen from above: there the plane's x axis is the drawing's, turned round (the arbitrary axis rule of DWG).
//!
//! The input is gone through twice, once for what there is to draw and once to draw it, so that one hatch is held at a time. Of what cannot be
//! read twice, such as a pipe, the requests are held, but those alone that are in view.

mod arcs;
mod area;
mod figure;
mod frame;
mod gradients;
mod names;
mod patterns;
mod pen;
mod runs;
mod splines;
mod svg;
mod view;

use std::ffi::OsStr;
use std::io::{BufWriter, Write};

use dwg_hatch::{Point2D, Refusal};

use self::figure::Figure;
use self::svg::{Coordinates, Seen, Sheet, Shown, DOT};
use self::view::{Extents, View};
use crate::commands::failure::{shown, Failure};
use crate::commands::input::{Entry, Input, Item, Kind};
use crate::commands::options::{Command, Options};
use crate::commands::origin::{origin, typed, ORIGIN};
use crate::commands::out_file;
use crate::commands::spelling::{Spelling, CODE_PAGE};
use crate::protocol::payload::Zeros;
use crate::protocol::request::number;

/// The command.
pub const DRAW: Command = Command {
    name: "draw",
    kind: Kind::Hatch,
    switches: &["--single"],
    values: &["--output", "--view", "--width", "--only", "--max-lines", ORIGIN, CODE_PAGE],
};

/// The picture's width where none is asked for.
const WIDTH: u32 = 1000;

/// So many strokes of pattern lines at most are drawn where no number is asked for.
const MOST_STROKES: usize = 20_000;

/// What the options ask for.
struct Wanted<'a> {
    width: u32,
    /// The view, if one is asked for.
    view: Option<Extents>,
    single: bool,
    /// The origin that hatches are moved to before they are narrowed; coordinates and views are counted from it.
    origin: Option<Point2D>,
    /// How names are spelt.
    spelling: Spelling,
    /// The request line whose hatch alone is drawn.
    only: Option<u64>,
    most_strokes: usize,
    /// The file that is written; else it is standard output.
    file: Option<&'a OsStr>,
}

/// What there is to draw.
#[derive(Default)]
struct Found {
    extents: Extents,
    /// How many hatches there are.
    hatches: usize,
    /// The requests that are in view with their hatches' numbers, of an input that cannot be read again.
    held: Option<Vec<(usize, Item)>>,
}

/// Draws the hatches of the input as SVG, to the file that `--output` names, else to `output`. What is refused, each line that is no request
/// and each outline that cannot be drawn is a line on `errors`, and the rest is drawn; if nothing is left of it, no picture is written. Gives
/// the tool's status: 0 if all was drawn, 1 if something was refused or could not be drawn, 2 if a line was no request. Where a file cannot be
/// read or written it fails, and leaves the output as it was.
pub fn run(options: &Options, input: &Input, output: impl Write, mut errors: impl Write) -> Result<u8, Failure> {
    let mut wanted = Wanted::new(options, input)?;
    wanted.origin = origin(&DRAW, options, input, wanted.only, &mut errors)?;
    let (found, status) = found(&wanted, input, &mut errors)?;
    if let (Some(line), 0, 0) = (wanted.only, found.hatches, status) {
        return Err(Failure::Usage(format!("--only {line}: {} has no hatch on line {line}; name a line with a hatch", input.name())));
    }
    if found.extents.is_empty() && status != 0 {
        return Ok(status);
    }
    let drawn = match wanted.file {
        Some(file) => out_file::write(file, |new| picture(&wanted, input, &found, new))?,
        None => picture(&wanted, input, &found, BufWriter::new(output))?,
    };
    for line in drawn.iter().flat_map(|shown| warnings(&wanted, shown)) {
        let _ = writeln!(errors, "dwg-hatch: warning: {line}");
    }
    Ok(status)
}

/// Whether the picture goes to standard output.
pub fn writes_to_stdout(options: &Options) -> bool {
    file(options).is_none()
}

fn file(options: &Options) -> Option<&OsStr> {
    options.value("--output").filter(|file| *file != "-")
}

impl<'a> Wanted<'a> {
    fn new(options: &'a Options, input: &Input) -> Result<Wanted<'a>, Failure> {
        let file = file(options);
        file.map_or(Ok(()), |file| out_file::is_no_input(file, input))?;
        let width = whole(options, "--width", "pixels from 1 to 100000", 1..=u64::from(View::TALLEST))?.map_or(WIDTH, |width| width as u32);
        let only = whole(options, "--only", "a request line, from 1", 1..=u64::MAX)?;
        if only.is_some() && !matches!(input, Input::Requests(..)) {
            return Err(DRAW.usage("--only names a line, and a binary file has none".to_string()));
        }
        let most = whole(options, "--max-lines", "strokes from 0 to 10000000", 0..=10_000_000)?;
        let (most_strokes, spelling) = (most.map_or(MOST_STROKES, |most| most as usize), Spelling::asked(&DRAW, options)?);
        Ok(Wanted { width, view: view(options)?, single: options.has("--single"), origin: None, spelling, only, most_strokes, file })
    }

    /// The hatch of an item, moved to the origin if one is asked for, and then with the numbers of its outlines narrowed if it is to be seen in single
    /// precision; `None` of a prefix, which has no outlines, and of a line that is not asked for.
    fn figure(&self, item: &Item, zeros: &mut Zeros) -> Result<Option<Figure>, Refusal> {
        match &item.entry {
            Entry::Hatch(request) if self.takes(item) => {
                let typed = typed(request, zeros, self.origin, |numbers| if self.single { narrow(numbers) })?;
                Ok(Some(Figure::new(item, typed, self.spelling)))
            }
            _ => Ok(None),
        }
    }

    fn takes(&self, item: &Item) -> bool {
        self.only.is_none() || item.line == self.only
    }
}

/// An option's number.
fn whole(options: &Options, name: &str, what: &str, range: std::ops::RangeInclusive<u64>) -> Result<Option<u64>, Failure> {
    let Some(value) = options.value(name) else { return Ok(None) };
    let wrong = || DRAW.usage(format!("{name} is \"{}\", which is no number of {what}", shown(value.as_encoded_bytes())));
    number(value.as_encoded_bytes()).filter(|number| range.contains(number)).map(Some).ok_or_else(wrong)
}

/// The view that is asked for.
fn view(options: &Options) -> Result<Option<Extents>, Failure> {
    let Some(value) = options.value("--view") else { return Ok(None) };
    let bytes = value.as_encoded_bytes();
    let wrong = || DRAW.usage(format!("--view is \"{}\", which is not X,Y,WIDTH,HEIGHT with a width and a height above 0", shown(bytes)));
    value.to_str().and_then(Extents::parse).map(Some).ok_or_else(wrong)
}

/// Goes through the input for the first time: the extents of what can be drawn, and a line for each thing that cannot be. Gives the status too.
fn found(wanted: &Wanted, input: &Input, errors: impl Write) -> Result<(Found, u8), Failure> {
    let mut found = Found { held: (!input.can_be_read_again()).then(Vec::new), ..Found::default() };
    let mut zeros = Zeros::default();
    let status = input.items()?.only(wanted.only).each(errors, |item| {
        let Some(figure) = wanted.figure(item, &mut zeros)? else { return Ok(()) };
        found.add(item, figure.extents(), wanted.view.as_ref());
        Ok(figure.left_out()?)
    })?;
    Ok((found, status))
}

impl Found {
    fn add(&mut self, item: &Item, extents: Extents, view: Option<&Extents>) {
        self.hatches += 1;
        if extents.is_empty() {
            return;
        }
        [extents.least, extents.greatest].into_iter().for_each(|corner| self.extents.include(corner));
        let held = self.held.as_mut().filter(|_| view.is_none_or(|view| extents.meets(view)));
        held.into_iter().for_each(|held| held.push((self.hatches - 1, item.clone())));
    }
}

/// Goes through the input for the second time, and writes the picture. Gives what it shows, if there was anything to draw.
fn picture(wanted: &Wanted, input: &Input, found: &Found, mut out: impl Write) -> Result<Option<Shown>, Failure> {
    let name = input.name();
    if found.extents.is_empty() {
        out.write_all(svg::empty(&name, wanted.width).as_bytes()).and_then(|()| out.flush())?;
        return Ok(None);
    }
    let view = View::new(wanted.view.unwrap_or_else(|| found.extents.with_margin()), wanted.width);
    let precision = if wanted.single { "single" } else { "double" };
    let mut sheet = Sheet::open(out, &name, Coordinates { precision, origin: wanted.origin }, &view, wanted.most_strokes)?;
    let mut zeros = Zeros::default();
    // What failed was said the first time.
    let mut hatch = |item: &Item| wanted.figure(item, &mut zeros).ok().flatten();
    match &found.held {
        Some(held) => held.iter().try_for_each(|(at, item)| hatch(item).map_or(Ok(()), |figure| sheet.add(*at, &figure)))?,
        None => {
            let figures = input.items()?.only(wanted.only).flatten().filter_map(|item| hatch(&item));
            figures.enumerate().try_for_each(|(at, figure)| sheet.add(at, &figure))?;
        }
    }
    Ok(Some(sheet.close()?))
}

/// What a person should know of a picture that shows little.
fn warnings(wanted: &Wanted, shown: &Shown) -> Vec<String> {
    let mut lines = Vec::new();
    if let (true, Some(first)) = (wanted.view.is_none() && shown.hatches > 1 && 2 * shown.dots >= shown.hatches, &shown.first_dot) {
        let dots = format!("{} of {} hatches are smaller than {DOT} pixels here, since they lie far apart", shown.dots, shown.hatches);
        lines.push(format!("{dots}; look at {}", ways_to(first)));
    }
    if let (true, Some(first)) = (wanted.most_strokes > 0, &shown.first_flood) {
        let hatches = if shown.floods == 1 { "1 hatch is".to_string() } else { format!("{} hatches are", shown.floods) };
        let floods = format!("{hatches} drawn without pattern lines, which would be more than {} in all", wanted.most_strokes);
        lines.push(format!("{floods}; raise --max-lines, or look at {}", ways_to(first)));
    }
    lines
}

/// How to look at a part of a picture, and at its first hatch that is hard to see. Only a hatch of a line can be asked for by `--only`.
fn ways_to(first: &Seen) -> String {
    let view = first.extents.with_margin().rounded();
    match first.line {
        Some(line) => format!("one by --only LINE, at a part by --view X,Y,WIDTH,HEIGHT: the first is that of line {line}, --only {line} or --view {view}"),
        None => format!("a part by --view X,Y,WIDTH,HEIGHT: the first is at --view {view}"),
    }
}

/// Every number in single precision.
fn narrow(numbers: &mut [f64]) {
    numbers.iter_mut().for_each(|number| *number = f64::from(*number as f32));
}

#[cfg(test)]
mod tests {
    use super::*;

    #[test]
    fn a_file_that_is_missing_is_status_1() {
        let missing = Input::Requests("no such file".into(), Kind::Hatch);
        assert_eq!(run(&Options::default(), &missing, Vec::new(), Vec::new()).unwrap_err().status(), 1);
    }
}
