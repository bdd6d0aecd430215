//! What `read`, `prefix` and `draw` take out of a whole drawing.

use std::io::{self, Read};

use super::drawing::Drawing;
use super::letters::Letters;
use super::object::{Object, RELEASE};
use super::types;
use crate::commands::failure::Failure;
use crate::commands::input::{self, Entry, Item, Kind};
use crate::protocol::payload::{Payload, LIMIT};
use crate::protocol::request::{HatchRequest, PrefixRequest};

/// The hatch bodies of a drawing, or the prefixes of its entities, one at a time.
pub struct DrawingItems {
    name: String,
    drawing: Drawing,
    kind: Kind,
    /// An item that is next, behind a line about it.
    next: Option<Item>,
    /// How many objects and how many items there were; `None` where the end was told.
    counts: Option<[usize; 2]>,
}

/// The drawing of a file that begins with these letters, or why it cannot be cut. Not more of it is taken than a payload may have, and one byte.
pub fn drawing(name: &str, letters: Letters, file: impl Read) -> Result<Drawing, Failure> {
    if !letters.is_cut() {
        return Err(letters.not_cut(name));
    }
    let mut bytes = Vec::new();
    file.take(LIMIT as u64 + 1).read_to_end(&mut bytes).map_err(|error: io::Error| input::unreadable(name, &error))?;
    if bytes.len() > LIMIT {
        return Err(Failure::Drawing(format!("{name}: a drawing of more than {LIMIT} bytes is not cut; split it, or cut its objects out by a DWG reader")));
    }
    Drawing::new(bytes).map_err(|wrong| Failure::Drawing(format!("{name}: {wrong}")))
}

impl DrawingItems {
    /// The items of one kind. `name` is the file's, for messages.
    pub fn new(name: String, drawing: Drawing, kind: Kind) -> DrawingItems {
        DrawingItems { name, drawing, kind, next: None, counts: Some([0; 2]) }
    }

    /// The object's item, if it has one of the kind.
    fn item(&mut self, object: &Object) -> Option<Result<Item, Failure>> {
        match self.kind {
            Kind::Prefix => types::entity(object.type_number).map(|_| Ok(self.prefix(object))),
            Kind::Hatch => (object.type_number == types::HATCH).then(|| self.hatch(object)),
        }
    }

    fn origin(&self, object: &Object) -> String {
        format!("{}: handle {:X}", self.name, object.handle)
    }

    fn prefix(&self, object: &Object) -> Item {
        let payload = Payload::Bytes(self.drawing.payload(object).to_vec());
        let entry = Entry::Prefix(PrefixRequest { release: RELEASE, start: object.prefix_start, payload });
        Item { origin: self.origin(object), line: None, entry }
    }

    /// A hatch whose body ends elsewhere than the drawing says is told first, and the next item then.
    fn hatch(&mut self, object: &Object) -> Result<Item, Failure> {
        let (origin, payload) = (self.origin(object), self.drawing.payload(object));
        let told = |wrong: String| Failure::Drawing(format!("{origin}: {wrong}"));
        let start = object.body_start(payload).map_err(told)?;
        let (bytes, wrong) = object.body(payload, start);
        let wrong = wrong.map(told);
        let request = HatchRequest { release: RELEASE, start, payload: Payload::Bytes(bytes.to_vec()), strings: None, lent: None };
        let item = Item { origin, line: None, entry: Entry::Hatch(request) };
        match wrong {
            None => Ok(item),
            Some(wrong) => {
                self.next = Some(item);
                Err(wrong)
            }
        }
    }

    /// The object's item, counted.
    fn counted(&mut self, object: &Object) -> Option<Result<Item, Failure>> {
        let item = self.item(object);
        if let Some([objects, items]) = &mut self.counts {
            *objects += 1;
            *items += usize::from(item.is_some());
        }
        item
    }

    /// The line about a drawing in which there is nothing to read; once.
    fn nothing(&mut self) -> Option<Result<Item, Failure>> {
        let [objects, items] = self.counts.take()?;
        let what = if self.kind == Kind::Hatch { "a hatch" } else { "known as an entity" };
        (items == 0).then(|| Err(Failure::Nothing(format!("{}: of its objects that can be read, {objects}, none is {what}", self.name))))
    }
}

impl Iterator for DrawingItems {
    type Item = Result<Item, Failure>;

    fn next(&mut self) -> Option<Result<Item, Failure>> {
        if let Some(item) = self.next.take() {
            return Some(Ok(item));
        }
        while let Some(object) = self.drawing.next() {
            let item = match object {
                Ok(object) => self.counted(&object),
                Err(wrong) => Some(Err(Failure::Drawing(format!("{}: {wrong}", self.name)))),
            };
            if item.is_some() {
                return item;
            }
        }
        self.nothing()
    }
}
