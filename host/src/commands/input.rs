//! What the commands for people read: request lines of a file, a payload that is a binary file, or a whole drawing. One [`Item`] at a time, with its
//! origin for messages.
//!
//! A file is read and never written. Of a file not more is taken than document 01's limit allows and one byte, since what is longer is
//! refused unread.

use std::ffi::{OsStr, OsString};
use std::fs::{self, File};
use std::io::{self, Cursor, Read};
use std::os::unix::ffi::OsStrExt;

use crate::commands::cut::items::{self, DrawingItems};
use crate::commands::cut::letters::{self, Letters};
use crate::commands::cut::Drawing;
use crate::commands::failure::{shown, Failure};
use crate::commands::items::Items;
use crate::commands::streams;
use crate::progress::Counted;
use crate::protocol::payload::{Payload, LIMIT};
use crate::protocol::request::{HatchRequest, PrefixRequest, Strings};

/// What is asked for.
#[derive(Clone, Debug, PartialEq, Eq)]
pub enum Entry {
    /// A hatch body.
    Hatch(HatchRequest),
    /// An entity prefix.
    Prefix(PrefixRequest),
}

/// One thing to read, and where it was asked for.
#[derive(Clone, Debug, PartialEq, Eq)]
pub struct Item {
    /// `FILE:LINE`, `FILE` of a binary file, or `FILE: handle H` of an object in a drawing.
    pub origin: String,
    /// The line's number, from 1; a binary file has none.
    pub line: Option<u64>,
    /// What is asked for.
    pub entry: Entry,
}

/// What a binary file holds, or what is read of a drawing.
#[derive(Clone, Copy, Debug, PartialEq, Eq)]
pub enum Kind {
    /// A hatch body.
    Hatch,
    /// An entity prefix.
    Prefix,
}

/// Where a command's input is. A file is a name, or `-` for standard input.
#[derive(Clone, Debug, PartialEq, Eq)]
pub enum Input {
    /// A file of request lines, or a whole drawing, of which this kind is read.
    Requests(OsString, Kind),
    /// A binary file.
    Binary(Binary),
}

/// A binary file as a payload.
#[derive(Clone, Debug, PartialEq, Eq)]
pub struct Binary {
    /// The file.
    pub file: OsString,
    /// What it holds.
    pub kind: Kind,
    /// The release, any number.
    pub release: u64,
    /// The start bit.
    pub start: usize,
    /// The string reader, if one is lent.
    pub strings: Option<BinaryStrings>,
}

/// A binary file as a string payload.
#[derive(Clone, Debug, PartialEq, Eq)]
pub struct BinaryStrings {
    /// The file.
    pub file: OsString,
    /// The start bit.
    pub start: usize,
    /// The end bit; without one the payload's end.
    pub end: Option<usize>,
}

impl Input {
    /// The items, in order. A line that is no request is a failure among them, and the lines after it are read; where a file cannot be read,
    /// or a line is no text, there is no item after the failure.
    pub fn items(&self) -> Result<Items, Failure> {
        match self {
            Input::Requests(file, kind) => match opened(file)? {
                Opened::Drawing(drawing) => Ok(Items::of_drawing(DrawingItems::new(name(file), drawing, *kind))),
                Opened::Lines(lines) => Ok(Items::of_lines(name(file), lines)),
            },
            Input::Binary(binary) => Ok(Items::of_one(Ok(binary.item()?))),
        }
    }

    /// The drawing, where the input is one.
    pub fn drawing(&self) -> Result<Option<Drawing>, Failure> {
        let Input::Requests(file, _) = self else { return Ok(None) };
        match opened(file)? {
            Opened::Drawing(drawing) => Ok(Some(drawing)),
            Opened::Lines(_) => Ok(None),
        }
    }

    /// The name of the file that has the requests or the main payload, for messages.
    pub fn name(&self) -> String {
        match self {
            Input::Requests(file, _) | Input::Binary(Binary { file, .. }) => name(file),
        }
    }

    /// Whether the items can be asked for twice, which is so if they come from files; a pipe is empty the second time.
    pub fn can_be_read_again(&self) -> bool {
        let strings = match self {
            Input::Binary(Binary { strings: Some(strings), .. }) => Some(&strings.file),
            _ => None,
        };
        let (Input::Requests(file, _) | Input::Binary(Binary { file, .. })) = self;
        [Some(file), strings].into_iter().flatten().all(|file| file != "-" && fs::metadata(file).is_ok_and(|file| file.is_file()))
    }

    /// How many bytes all its files have, if it can be read again.
    pub fn length(&self) -> Option<u64> {
        let lengths = self.files().into_iter().map(|file| fs::metadata(file).map(|file| file.len()).ok());
        if self.can_be_read_again() { lengths.sum() } else { None }
    }

    /// The files that are read; standard input is none.
    pub fn files(&self) -> Vec<&OsStr> {
        let files = match self {
            Input::Requests(file, _) => [Some(file), None],
            Input::Binary(binary) => [Some(&binary.file), binary.strings.as_ref().map(|strings| &strings.file)],
        };
        files.into_iter().flatten().map(OsString::as_os_str).filter(|file| *file != "-").collect()
    }
}

impl Binary {
    fn item(&self) -> Result<Item, Failure> {
        let (release, start, payload) = (self.release, self.start, payload(&self.file)?);
        let entry = match self.kind {
            Kind::Prefix => Entry::Prefix(PrefixRequest { release, start, payload: Payload::Bytes(payload) }),
            Kind::Hatch => {
                let strings = self.strings.as_ref().map(BinaryStrings::read).transpose()?;
                Entry::Hatch(HatchRequest { release, start, payload: Payload::Bytes(payload), strings, lent: None })
            }
        };
        Ok(Item { origin: name(&self.file), line: None, entry })
    }
}

impl BinaryStrings {
    fn read(&self) -> Result<Strings, Failure> {
        let payload = payload(&self.file)?;
        let end = self.end.unwrap_or(8 * payload.len());
        Ok(Strings { start: self.start, end, payload: Payload::Bytes(payload) })
    }
}

/// A binary file's bytes, but not more than one above the limit. A whole drawing is no payload.
fn payload(file: &OsStr) -> Result<Vec<u8>, Failure> {
    let mut bytes = Vec::new();
    open(file)?.take(LIMIT as u64 + 1).read_to_end(&mut bytes).map_err(|error| unreadable(&name(file), &error))?;
    Letters::of(&bytes).map_or(Ok(bytes), |letters| Err(letters.no_payload(&name(file))))
}

/// A file that is no payload, by its first letters.
enum Opened {
    Drawing(Drawing),
    Lines(Box<dyn Read + Send>),
}

fn opened(file: &OsStr) -> Result<Opened, Failure> {
    let mut rest = open(file)?;
    let mut first = Vec::new();
    rest.by_ref().take(letters::COUNT as u64).read_to_end(&mut first).map_err(|error| unreadable(&name(file), &error))?;
    let letters = Letters::of(&first);
    let whole = Cursor::new(first).chain(rest);
    Ok(match letters {
        Some(letters) => Opened::Drawing(items::drawing(&name(file), letters, whole)?),
        None => Opened::Lines(Box::new(whole)),
    })
}

fn open(file: &OsStr) -> Result<Box<dyn Read + Send>, Failure> {
    if file == "-" {
        return Ok(Box::new(Counted(streams::input())));
    }
    let open = File::open(file).map_err(|error| unreadable(&name(file), &error))?;
    Ok(Box::new(Counted(open)))
}

/// A file's name for messages.
fn name(file: &OsStr) -> String {
    if file == "-" { "standard input".to_string() } else { shown(file.as_bytes()) }
}

pub fn unreadable(name: &str, error: &io::Error) -> Failure {
    Failure::Read(format!("{name} cannot be read: {error}; name a file that can be read, or - for standard input"))
}
