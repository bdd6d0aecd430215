//! The command `cut`: a whole drawing of R2000 as request lines. `read`, `prefix` and `draw` take such a drawing by the same parts.
//!
//! It is the host's own, tested and not proved: it finds where a prefix starts, and the proved prefix call says where the body behind it starts.

mod drawing;
pub mod items;
pub mod letters;
mod modular;
mod object;
mod object_map;
mod sections;
mod types;

use std::io::{self, BufWriter, Write};

pub use drawing::Drawing;
use object::{Object, RELEASE};

use crate::commands::failure::Failure;
use crate::commands::input::{Input, Kind};
use crate::commands::options::{Command, Options};
use crate::commands::written::counted;

/// The command.
pub const CUT: Command = Command { name: "cut", kind: Kind::Hatch, switches: &["--prefixes"], values: &[] };

/// How many objects of each kind were found.
#[derive(Default)]
struct Counts {
    hatches: usize,
    entities: usize,
    others: usize,
}

impl Counts {
    fn add(&mut self, object: &Object) {
        let count = match types::entity(object.type_number) {
            Some(_) if object.type_number == types::HATCH => &mut self.hatches,
            Some(_) => &mut self.entities,
            None => &mut self.others,
        };
        *count += 1;
    }
}

/// Writes a request line for each hatch body of a drawing to `output`, with `--prefixes` one for each entity's prefix too. What cannot be cut is a line
/// on `errors`. Gives the tool's status: 0 if all was cut, 1 if something is wrong with the drawing.
pub fn run(options: &Options, input: &Input, output: impl Write, mut errors: impl Write) -> Result<u8, Failure> {
    let name = input.name();
    if matches!(input, Input::Binary(_)) {
        return Err(CUT.usage("cut takes a whole drawing, which states its release: leave --release out".to_string()));
    }
    let wrong = || CUT.usage(format!("{name} is no whole drawing, which begins with AC10 and two digits; dwg-hatch read reads lines and payloads"));
    let drawing = input.drawing()?.ok_or_else(wrong)?;
    let mut output = BufWriter::with_capacity(1 << 16, output);
    let mut status = 0;
    cut(&name, drawing, options.has("--prefixes"), &mut output, |wrong| {
        status = 1;
        let _ = writeln!(errors, "dwg-hatch: {name}: {wrong}");
    })?;
    output.flush()?;
    Ok(status)
}

fn cut(name: &str, mut drawing: Drawing, prefixes: bool, output: &mut impl Write, mut tell: impl FnMut(String)) -> io::Result<()> {
    let mut counts = Counts::default();
    let bytes = counted(drawing.bytes().len(), "byte");
    writeln!(output, "# {name}: a drawing of R2000, {bytes}. Each line below is for dwg-hatch read; bits are counted from the line's first byte.")?;
    while let Some(object) = drawing.next() {
        let wrong = match object {
            Ok(object) => {
                counts.add(&object);
                cut_object(&object, drawing.payload(&object), prefixes, output)?
            }
            Err(wrong) => Some(wrong),
        };
        wrong.into_iter().for_each(&mut tell);
    }
    let Counts { hatches, entities, others } = counts;
    let objects = counted(hatches + entities + others, "object");
    writeln!(output, "# {objects}: hatches {hatches}, other entities {entities}, of types that are not known as entities {others}.")
}

/// Writes an object's lines, if it has any. Gives what is wrong with it.
fn cut_object(object: &Object, payload: &[u8], prefixes: bool, output: &mut impl Write) -> io::Result<Option<String>> {
    let is_hatch = object.type_number == types::HATCH;
    let Some(type_name) = types::entity(object.type_number).filter(|_| is_hatch || prefixes) else { return Ok(None) };
    let (handle, place, end) = (object.handle, object.place, object.fields_end);
    writeln!(output, "# handle {handle:X}: {type_name} at byte {place}; its own fields end at bit {end}")?;
    if prefixes {
        request(output, "prefix", object.prefix_start, payload)?;
    }
    if !is_hatch {
        return Ok(None);
    }
    let wrong = match object.body_start(payload) {
        Ok(start) => {
            let (bytes, wrong) = object.body(payload, start);
            request(output, "hatch", start, bytes)?;
            wrong
        }
        Err(wrong) => Some(wrong),
    };
    Ok(wrong.map(|wrong| format!("handle {handle:X}: {wrong}")))
}

/// A request line.
fn request(output: &mut impl Write, name: &str, start: usize, payload: &[u8]) -> io::Result<()> {
    const DIGITS: &[u8; 16] = b"0123456789ABCDEF";
    write!(output, "{name} {RELEASE} {start} ")?;
    let digits: Vec<u8> = payload.iter().flat_map(|byte| [byte >> 4, byte & 15]).map(|digit| DIGITS[usize::from(digit)]).collect();
    output.write_all(&digits)?;
    writeln!(output)
}
