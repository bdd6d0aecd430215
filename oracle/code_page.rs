//! The table of code page 1252 from the Unicode Consortium's mapping file, as it stands in the source.
//!
//!   code_page code FILE             the Rattle constant, as in crates/code_page/src/table.rt
//!   code_page specs FILE            the definition, as in crates/code_page/specs/Cp1252.antt
//!   code_page both FILE             both, an empty line between them
//!   code_page check FILE CRATE      compares both with the files of that crate
//!
//! A mapping file that is not whole, or not of this form, is refused: one line on standard error says where and why, the status is 1, and
//! nothing is printed. A file that cannot be read whole must not become a table.

use std::fs::File;
use std::io::{self, Read, Write};
use std::process::ExitCode;

/// How many bytes a code page has.
const BYTES: usize = 256;

/// What stands in the table for a byte that the file leaves undefined; no unit can be it.
const UNDEFINED: u16 = 0xffff;

/// The name of such a byte in the file.
const UNDEFINED_NAME: &str = "UNDEFINED";

/// No mapping file of 256 rows is longer, in bytes.
const LONGEST: u64 = 1 << 20;

/// A row: a byte, and its unit if it has one.
type Row = (usize, Option<u16>);

/// The table, and in which line of the file each byte stands.
#[derive(Default)]
struct Table {
    units: Vec<Option<u16>>,
    lines: Vec<usize>,
}

fn read(path: &str) -> Result<String, String> {
    let mut bytes = Vec::new();
    let file = File::open(path).map_err(|error| format!("{path}: {error}"))?;
    file.take(LONGEST + 1).read_to_end(&mut bytes).map_err(|error| format!("{path}: {error}"))?;
    if bytes.len() as u64 > LONGEST {
        return Err(format!("{path}: it has more than {LONGEST} bytes, and is no mapping file"));
    }
    String::from_utf8(bytes).map_err(|error| {
        let good = error.utf8_error().valid_up_to();
        let line = 1 + error.as_bytes()[..good].iter().filter(|byte| **byte == b'\n').count();
        format!("{path}: line {line}: bytes that are no text")
    })
}

/// `0x` and so many hexadecimal digits.
fn hex(text: &str, digits: usize) -> Option<u16> {
    let text = text.strip_prefix("0x")?;
    let plain = text.len() == digits && text.bytes().all(|byte| byte.is_ascii_hexdigit());
    if plain { u16::from_str_radix(text, 16).ok() } else { None }
}

/// `0xXX`, tab, `0xXXXX`, tab, `#` and a name; or `0xXX`, tab, spaces, tab, `#UNDEFINED`.
fn row(line: &str) -> Option<Row> {
    let columns: Vec<&str> = line.split('\t').collect();
    let [byte, unit, name] = columns[..] else { return None };
    let name = name.strip_prefix('#')?;
    let byte = usize::from(hex(byte, 2)?);
    if name == UNDEFINED_NAME {
        let blank = !unit.is_empty() && unit.bytes().all(|byte| byte == b' ');
        return blank.then_some((byte, None));
    }
    let named = !name.trim().is_empty();
    if named { Some((byte, Some(hex(unit, 4)?))) } else { None }
}

/// What a line says: nothing, where it is blank or a comment, or a row.
fn parse(line: &str) -> Result<Option<Row>, String> {
    if let Some(control) = line.chars().find(|c| c.is_control() && *c != '\t') {
        return Err(format!("the control character {control:?}, which is no text"));
    }
    if line.starts_with('#') || line.trim().is_empty() {
        return Ok(None);
    }
    let shown: String = line.chars().take(60).collect();
    row(line).map(Some).ok_or(format!("neither a row of three columns nor a comment: {shown:?}"))
}

impl Table {
    fn add(&mut self, number: usize, (byte, unit): Row) -> Result<(), String> {
        if let Some(line) = self.lines.get(byte) {
            return Err(format!("byte 0x{byte:02X} for the second time, after line {line}"));
        }
        if byte != self.units.len() {
            return Err(format!("byte 0x{byte:02X} where 0x{:02X} is due", self.units.len()));
        }
        if unit == Some(UNDEFINED) {
            return Err(format!("unit 0x{UNDEFINED:04X}, which stands for undefined bytes in the table"));
        }
        if let Some(at) = self.units.iter().position(|known| known.is_some() && *known == unit) {
            return Err(format!("byte 0x{byte:02X} has the unit of byte 0x{at:02X} of line {}", self.lines[at]));
        }
        self.units.push(unit);
        self.lines.push(number);
        Ok(())
    }
}

/// The table that the file's text gives, or in which line what is wrong. The last line ends as all others do, so that a file that was cut is seen.
fn table(text: &str) -> Result<Table, String> {
    let mut table = Table::default();
    let lines: Vec<&str> = text.split('\n').collect();
    for (index, line) in lines.iter().enumerate() {
        let number = index + 1;
        let here = |why: String| format!("line {number}: {why}");
        if number == lines.len() && !line.is_empty() {
            return Err(here("the file is cut: this line has no end".to_string()));
        }
        let line = line.strip_suffix('\r').unwrap_or(line);
        if let Some(row) = parse(line).map_err(here)? {
            table.add(number, row).map_err(here)?;
        }
    }
    let rows = table.units.len();
    if rows < BYTES {
        let last = (lines.len() - 1).max(1);
        return Err(format!("line {last}: the file ends with {rows} rows, and byte 0x{rows:02X} is due"));
    }
    Ok(table)
}

/// An entry as it stands in either text.
fn entry(unit: &Option<u16>) -> String {
    format!("0x{:04X}", unit.unwrap_or(UNDEFINED))
}

/// An entry a line, with its byte.
fn code(table: &Table) -> Vec<String> {
    let first = format!("const CP1252: [u16; {BYTES}] = [");
    let rows = table.units.iter().enumerate().map(|(byte, unit)| format!("    {}, // {byte:02X}", entry(unit)));
    [first].into_iter().chain(rows).chain(["];".to_string()]).collect()
}

/// Eight entries a line, with their bytes; `∷` stands behind each, and the empty list behind the last.
fn specs(table: &Table) -> Vec<String> {
    let row = |(index, units): (usize, &[Option<u16>])| {
        let (first, last) = (8 * index, 8 * index + 7);
        let end = if last + 1 == BYTES { " ∷ []" } else { " ∷" };
        let entries: Vec<String> = units.iter().map(entry).collect();
        format!("    {}{end}  -- {first:02X} to {last:02X}", entries.join(" ∷ "))
    };
    let rows = table.units.chunks(8).enumerate().map(row);
    ["unfoldable pub cp1252 : List ℕ", "cp1252 ="].map(str::to_string).into_iter().chain(rows).collect()
}

/// Compares the lines with those of a file of the source, from the one on that is the first of them.
fn compare(path: &str, wanted: &[String], mapping: &str) -> Result<(), String> {
    let text = read(path)?;
    let lines: Vec<&str> = text.lines().collect();
    let places: Vec<usize> = (0..lines.len()).filter(|at| lines[*at] == wanted[0]).collect();
    let [begin] = places[..] else {
        return Err(format!("{path}: the table's first line, {:?}, stands there {} times and not once", wanted[0], places.len()));
    };
    for (offset, line) in wanted.iter().enumerate() {
        let found = lines.get(begin + offset).copied().unwrap_or("(the end of the file)");
        if found != line {
            return Err(format!("{path}: line {}: it has {:?}, and {mapping} gives {:?}", begin + offset + 1, found.trim(), line.trim()));
        }
    }
    Ok(())
}

/// Compares both places, and says what was compared.
fn check(table: &Table, mapping: &str, folder: &str) -> Result<String, String> {
    let (source, definition) = (format!("{folder}/src/table.rt"), format!("{folder}/specs/Cp1252.antt"));
    compare(&source, &code(table), mapping)?;
    compare(&definition, &specs(table), mapping)?;
    let undefined = table.units.iter().filter(|unit| unit.is_none()).count();
    Ok(format!("{source} and {definition} have the table of {mapping}: {BYTES} bytes, {undefined} of them undefined"))
}

/// What is asked for, printed last, so that nothing is printed where something is wrong.
fn run(words: &[&str]) -> Result<(), String> {
    let (asked, path, rest) = match words {
        [asked, path, rest @ ..] => (*asked, *path, rest),
        _ => return Err("usage: code_page code|specs|both FILE, or code_page check FILE CRATE".to_string()),
    };
    let table = table(&read(path)?).map_err(|why| format!("{path}: {why}"))?;
    let lines = match (asked, rest) {
        ("code", []) => code(&table),
        ("specs", []) => specs(&table),
        ("both", []) => [code(&table), vec![String::new()], specs(&table)].concat(),
        ("check", [folder]) => vec![format!("oracle/code-page: {}", check(&table, path, folder)?)],
        _ => return Err(format!("no such words: {}", words.join(" "))),
    };
    io::stdout().write_all((lines.join("\n") + "\n").as_bytes()).map_err(|error| format!("standard output: {error}"))
}

fn main() -> ExitCode {
    let words: Vec<String> = std::env::args().skip(1).collect();
    match run(&words.iter().map(String::as_str).collect::<Vec<&str>>()) {
        Ok(()) => ExitCode::SUCCESS,
        Err(why) => {
            eprintln!("oracle/code-page: {why}");
            ExitCode::from(1)
        }
    }
}
