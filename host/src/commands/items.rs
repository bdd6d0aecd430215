//! The items of an input, one at a time or in batches: request lines as they come, the objects of a drawing, or one payload.

use std::fmt::Write;
use std::io::{BufRead, BufReader, Read};

use crate::commands::cut::items::DrawingItems;
use crate::commands::failure::{shown, Failure};
use crate::commands::input::{unreadable, Entry, Item};
use crate::commands::lines;
use crate::jobs::Batch;
use crate::protocol::payload::{Payload, LIMIT};
use crate::protocol::request::Request;

/// The longest line that is read: two payloads at the limit in hexadecimal, and room for the numbers.
const LONGEST_LINE: u64 = 4 * LIMIT as u64 + 1024;

/// So much of a line is looked at before more is read: a file without line ends is told from a long request by it.
const FIRST_PART: u64 = 1 << 16;

/// The items of an input.
pub struct Items {
    left: Left,
    /// The one line that is looked at, if not all are.
    only: Option<u64>,
}

/// What is left of an input.
enum Left {
    Lines { name: String, number: u64, lines: BufReader<Box<dyn Read + Send>> },
    Drawing(DrawingItems),
    One(Option<Result<Item, Failure>>),
}

impl Items {
    /// The items of request lines. `name` is the file's, for messages.
    pub fn of_lines(name: String, lines: impl Read + Send + 'static) -> Items {
        let lines = BufReader::with_capacity(1 << 16, Box::new(lines) as Box<dyn Read + Send>);
        Items { left: Left::Lines { name, number: 0, lines }, only: None }
    }

    /// The items of a drawing.
    pub fn of_drawing(items: DrawingItems) -> Items {
        Items { left: Left::Drawing(items), only: None }
    }

    /// One item, or a failure.
    pub fn of_one(item: Result<Item, Failure>) -> Items {
        Items { left: Left::One(Some(item)), only: None }
    }

    /// The next items: as many as are there without waiting for more input, but not many more than so many bytes. `None` at the end.
    pub fn batch(&mut self, bytes: usize) -> Option<ItemBatch> {
        let first = self.next()?;
        let mut batch = ItemBatch { size: size(&first), items: vec![first] };
        while batch.size < bytes && !self.waits() {
            match self.step() {
                Step::PassedOver => {}
                Step::Found(item) => {
                    batch.size += size(&item);
                    batch.items.push(item);
                }
                Step::End => break,
            }
        }
        Some(batch)
    }

    /// Whether the next item may not be there yet.
    fn waits(&self) -> bool {
        matches!(&self.left, Left::Lines { lines, .. } if !lines.buffer().contains(&b'\n'))
    }

    /// Only the item of this line; the others are passed over unread. A drawing has no lines.
    pub fn only(self, line: Option<u64>) -> Items {
        match (&self.left, line) {
            (Left::Drawing(_), Some(_)) => {
                let wrong = "--only names a line, and a drawing has none; dwg-hatch cut writes its hatches as lines".to_string();
                Items::of_one(Err(Failure::Usage(wrong)))
            }
            _ => Items { only: line, ..self },
        }
    }
}

/// Some items that follow one another.
pub struct ItemBatch {
    /// The items, one at least; what is no item is a failure.
    pub items: Vec<Result<Item, Failure>>,
    size: usize,
}

impl Batch for ItemBatch {
    fn size(&self) -> usize {
        self.size
    }
}

/// About how many bytes an item holds.
fn size(item: &Result<Item, Failure>) -> usize {
    let payload = |payload: &Payload| if let Payload::Bytes(bytes) = payload { bytes.len() } else { 0 };
    let bytes = match item.as_ref().map(|item| &item.entry) {
        Ok(Entry::Hatch(hatch)) => payload(&hatch.payload) + hatch.strings.as_ref().map_or(0, |strings| payload(&strings.payload)),
        Ok(Entry::Prefix(prefix)) => payload(&prefix.payload),
        Err(_) => 0,
    };
    size_of::<Item>() + bytes
}

impl Iterator for Items {
    type Item = Result<Item, Failure>;

    fn next(&mut self) -> Option<Result<Item, Failure>> {
        loop {
            match self.step() {
                Step::PassedOver => {}
                Step::Found(item) => return Some(item),
                Step::End => return None,
            }
        }
    }
}

/// What one line of an input holds, the next item of a drawing, or all of a binary file.
enum Step {
    PassedOver,
    Found(Result<Item, Failure>),
    End,
}

impl Items {
    fn step(&mut self) -> Step {
        let (name, number, lines) = match &mut self.left {
            Left::Lines { name, number, lines } => (name, number, lines),
            Left::Drawing(items) => return items.next().map_or(Step::End, Step::Found),
            Left::One(item) => return item.take().map_or(Step::End, Step::Found),
        };
        *number += 1;
        let last = match next_line(name, *number, lines) {
            Ok(Some(_)) if self.only.is_some_and(|only| only != *number) => return Step::PassedOver,
            Ok(Some(line)) if lines::is_passed_over(&line) => return Step::PassedOver,
            Ok(Some(line)) if !lines::is_text(&line) => Step::Found(Err(no_text(name, *number, &line))),
            Ok(Some(line)) => return Step::Found(item(name, *number, &line)),
            Ok(None) => Step::End,
            Err(failure) => Step::Found(Err(failure)),
        };
        self.left = Left::One(None);
        last
    }
}

/// The next line; `None` at the end.
fn next_line(name: &str, number: u64, lines: &mut dyn BufRead) -> Result<Option<Vec<u8>>, Failure> {
    let mut line = Vec::new();
    take(name, lines, FIRST_PART, &mut line)?;
    if line.len() as u64 == FIRST_PART && line.last() != Some(&b'\n') {
        if !lines::is_text_so_far(&line) {
            return Err(no_text(name, number, &line));
        }
        take(name, lines, LONGEST_LINE - FIRST_PART, &mut line)?;
    }
    if line.len() as u64 == LONGEST_LINE && line.last() != Some(&b'\n') {
        return Err(Failure::Usage(format!("{name}:{number}: the line is longer than any request can be, and reading ends here")));
    }
    // Some editors put this mark before the first line.
    if number == 1 && line.starts_with(b"\xef\xbb\xbf") {
        line.drain(..3);
        return Ok(Some(line));
    }
    Ok((!line.is_empty()).then_some(line))
}

/// Adds what is left of the line, but not more than so many bytes.
fn take(name: &str, lines: &mut dyn BufRead, most: u64, line: &mut Vec<u8>) -> Result<(), Failure> {
    lines.take(most).read_until(b'\n', line).map(drop).map_err(|error| unreadable(name, &error))
}

fn no_text(name: &str, number: u64, line: &[u8]) -> Failure {
    let start = shown(&line[..line.len().min(20)]);
    Failure::Usage(format!("{name}:{number}: \"{start}\" is no text; a binary file is read with --release N, and reading ends here"))
}

fn item(name: &str, number: u64, line: &[u8]) -> Result<Item, Failure> {
    let origin = origin(name, number);
    match crate::protocol::request::parse(line) {
        Some(Request::Hatch(request)) => Ok(Item { origin, line: Some(number), entry: Entry::Hatch(request) }),
        Some(Request::Prefix(request)) => Ok(Item { origin, line: Some(number), entry: Entry::Prefix(request) }),
        Some(Request::Code(_) | Request::Text(_) | Request::Move(_) | Request::Conversion(_)) | None => {
            Err(Failure::Usage(format!("{origin}: {}", lines::why_not(line))))
        }
    }
}

/// `FILE:LINE`, made with room for any number, so that it does not move as it grows.
fn origin(name: &str, number: u64) -> String {
    let mut origin = String::with_capacity(name.len() + 21);
    write!(origin, "{name}:{number}").expect("a String takes what is written");
    origin
}

#[cfg(test)]
mod tests {
    use super::*;

    #[test]
    fn items_of_request_lines() {
        let lines = b"# a comment, then a hatch\n\nhatch 2 0 A9AAA0\nnothing\nprefix 2 0 85D08740\n";
        let mut items = Items::of_lines("file.txt".to_string(), &lines[..]);
        let hatch = items.next().unwrap().unwrap();
        assert!(matches!(&hatch.entry, Entry::Hatch(request) if request.release == 2));
        assert_eq!(hatch.origin, "file.txt:3");
        assert_eq!(items.next().unwrap().unwrap_err().status(), 2);
        assert!(matches!(items.next().unwrap().unwrap().entry, Entry::Prefix(_)));
        assert!(items.next().is_none());
    }

    #[test]
    fn batches_have_all_items_and_wait_for_none() {
        // Three lines are there at once, the fourth comes later.
        let input = b"hatch 2 0 A9AAA0\nnothing\n# a comment\n".chain(&b"prefix 2 0 85D08740\n"[..]);
        let mut items = Items::of_lines("file.txt".to_string(), input);
        let first = items.batch(1 << 16).expect("a batch");
        assert!(first.items.len() == 2 && first.items[0].is_ok() && first.items[1].is_err() && first.size() > 3);
        assert_eq!(items.batch(1 << 16).expect("a batch").items.len(), 1);
        assert!(items.batch(1 << 16).is_none());
        // A batch ends once it has enough.
        let mut items = Items::of_lines("file.txt".to_string(), &b"hatch 2 0 A9AAA0\nhatch 2 0 A9AAA0\n"[..]);
        assert_eq!([1, 1].map(|bytes| items.batch(bytes).expect("a batch").items.len()), [1, 1]);
    }
}
