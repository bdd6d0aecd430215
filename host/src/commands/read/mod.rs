//! The commands `read` and `prefix`: hatches and prefixes for a person, or as JSON.

mod json;
mod json_forms;
mod measures;
mod names;
mod page;
mod summary;

use std::io::{BufWriter, Write};

use dwg_hatch::{read_common_entity_bits, CommonEntityBits, Point2D, Reading, Refusal, TypedHatch};

use crate::commands::each::{Done, Problem};
use crate::commands::failure::Failure;
use crate::commands::input::{Entry, Input, Item, Kind};
use crate::commands::options::{Command, Options, JOBS};
use crate::commands::origin::{origin, typed_bits, ORIGIN};
use crate::commands::spelling::{Spelling, CODE_PAGE};
use crate::commands::warnings::warning;
use crate::protocol::lists::lists;
use crate::protocol::payload::Zeros;
use crate::protocol::request::{HatchRequest, PrefixRequest};
use crate::protocol::OUTSIDE;
use names::{Named, Names};

/// The command that reads hatches and prefixes.
pub const READ: Command = Command { name: "read", kind: Kind::Hatch, switches: &["--json", "--quiet", NAMES], values: &[JOBS, ORIGIN, CODE_PAGE] };

/// The option that lists the names which stand in the input both padded and not.
const NAMES: &str = "--names";

/// The command that reads prefixes alone.
pub const PREFIX: Command = Command { name: "prefix", kind: Kind::Prefix, switches: &["--json"], values: &[JOBS], ..READ };

/// Reads each item of the input and writes it to `output`: a summary, or with `--json` one object a line. What is refused, each line that is no
/// request and, without `--quiet`, each hatch that may have been read wrongly is a line on `errors`. Gives the tool's status: 0 if all was read, 1 if
/// something was refused or a file could not be read, 2 if a line was no request. The work is done by as many jobs as `--jobs` says, and what is written
/// is the same for any number. Hatches are moved to the origin that `--origin` asks for, and names are spelt by the page that `--code-page` does. With
/// `--names` the list of the names that stand in the input both padded and not comes last.
pub fn run(command: &Command, options: &Options, input: &Input, output: impl Write, mut errors: impl Write) -> Result<u8, Failure> {
    let (jobs, spelling, command) = (command.jobs(options)?, Spelling::asked(command, options)?, *command);
    let origin = origin(&command, options, input, None, &mut errors)?;
    let wanted = Wanted { command, json: options.has("--json"), quiet: options.has("--quiet"), names: options.has(NAMES), origin, spelling };
    let (mut output, mut names) = (BufWriter::with_capacity(1 << 16, output), Names::spelt(spelling));
    let worker = move || {
        let mut zeros = Zeros::default();
        move |item: &Item| read(&wanted, item, &mut zeros)
    };
    let status = input.each_by_jobs(jobs, &mut output, errors, worker, |named| names.add(named))?;
    if wanted.names {
        output.write_all(if wanted.json { names.json() } else { names.summary() }.as_bytes())?;
        output.flush()?;
    }
    Ok(status)
}

/// What is asked for of each item.
#[derive(Clone, Copy)]
struct Wanted {
    command: Command,
    json: bool,
    quiet: bool,
    names: bool,
    /// Where a hatch is moved to.
    origin: Option<Point2D>,
    /// How its names are spelt.
    spelling: Spelling,
}

fn read(wanted: &Wanted, item: &Item, zeros: &mut Zeros) -> Done<Named> {
    if let Err(failure) = taken(&wanted.command, item) {
        return Done { text: String::new(), problem: Some(failure.into()), more: None };
    }
    match written(wanted, item, zeros) {
        Ok(Read { text, warning, named }) => Done { text, problem: warning.filter(|_| !wanted.quiet).map(Problem::Doubted), more: named },
        Err(refusal) => {
            let text = if wanted.json { json_forms::refusal(item, &refusal) + "\n" } else { String::new() };
            Done { text, problem: Some(refusal.into()), more: None }
        }
    }
}

/// Whether the command reads the item.
fn taken(command: &Command, item: &Item) -> Result<(), Failure> {
    match (command.kind, &item.entry) {
        (Kind::Prefix, Entry::Hatch(_)) => Err(Failure::Usage("a hatch is read by dwg-hatch read; here a line is prefix".to_string())),
        _ => Ok(()),
    }
}

/// What is written of an item that was read, with its line ends, and its names if they are asked for.
struct Read {
    text: String,
    warning: Option<String>,
    named: Option<Named>,
}

fn written(wanted: &Wanted, item: &Item, zeros: &mut Zeros) -> Result<Read, Refusal> {
    match &item.entry {
        Entry::Hatch(request) => {
            let typed = typed(request, wanted.origin, zeros)?;
            let text = match wanted.json {
                true => json_forms::hatch(item, &typed, wanted) + "\n",
                false => summary::hatch(item, request, &typed, wanted),
            };
            Ok(Read { text, warning: warning(request, typed.hatch.places.main), named: wanted.names.then(|| Named::of(typed)) })
        }
        Entry::Prefix(request) => {
            let (data, place) = prefix(request, zeros)?;
            let text = match wanted.json {
                true => json_forms::prefix(item, &data, place) + "\n",
                false => summary::prefix(item, request, &data, place),
            };
            // A prefix has no warning: what follows it is the entity's. Nor has it a name.
            Ok(Read { text, warning: None, named: None })
        }
    }
}

fn prefix(request: &PrefixRequest, zeros: &mut Zeros) -> Reading<CommonEntityBits> {
    zeros.reserve(&request.payload);
    read_common_entity_bits(zeros.lend(&request.payload), request.start, request.release)
}

/// The body with each double as its 64 bits, moved if an origin is asked for.
fn typed(request: &HatchRequest, origin: Option<Point2D>, zeros: &mut Zeros) -> Result<TypedHatch<u64>, Refusal> {
    let body = request.body(zeros);
    if request.lent.is_none() && origin.is_none() {
        return body.read_bits();
    }
    let read = match request.lent {
        None => body.decode_bits()?,
        lent => lists(&body, lent, |numbers, words| body.decode_bits_into(numbers, words))?,
    };
    match origin {
        Some(origin) => typed_bits(&body, read, origin),
        None => Ok(body.typed(read).expect(OUTSIDE)),
    }
}

#[cfg(test)]
mod tests {
    use super::*;

    #[test]
    fn a_file_that_is_missing_is_status_1() {
        let missing = Input::Requests("no such file".into(), Kind::Hatch);
        assert_eq!(run(&READ, &Options::default(), &missing, Vec::new(), Vec::new()).unwrap_err().status(), 1);
    }
}
