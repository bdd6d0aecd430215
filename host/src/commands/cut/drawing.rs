//! An R2000 drawing: its objects one by one, in the object map's order.
//!
//! Time grows with the file's length alone: the map is read once, and what its objects' payloads come to may not pass the file's length, so a map
//! that names bytes again and again comes to an end.

use super::object::Object;
use super::object_map::ObjectMap;
use super::sections;

/// So many objects that cannot be read are told one by one; of the others the count.
const TOLD: usize = 10;

/// What to do about a drawing that is not as it should be.
const ADVICE: &str = "the file is damaged or cut short: take a whole copy, or save the drawing anew";

/// What is left of a drawing.
#[derive(Debug)]
pub struct Drawing {
    bytes: Vec<u8>,
    map: Option<ObjectMap>,
    /// What the payloads so far come to.
    taken: usize,
    /// How many objects so far cannot be read.
    wrong: usize,
}

impl Drawing {
    /// The drawing in a file's bytes, or what is wrong with it.
    pub fn new(bytes: Vec<u8>) -> Result<Drawing, String> {
        let section = sections::object_map(&bytes).map_err(|wrong| format!("{wrong}; {ADVICE}"))?;
        Ok(Drawing { bytes, map: Some(ObjectMap::new(section)), taken: 0, wrong: 0 })
    }

    /// The file's bytes.
    pub fn bytes(&self) -> &[u8] {
        &self.bytes
    }

    /// An object's payload.
    pub fn payload(&self, object: &Object) -> &[u8] {
        &self.bytes[object.payload.clone()]
    }

    /// The next object of the map; `None` at its end. What is wrong with the map ends the drawing.
    fn object(&mut self) -> Option<Result<Object, Wrong>> {
        let pair = self.map.as_mut()?.next(&self.bytes);
        let pair = match pair {
            Ok(pair) => pair?,
            Err(wrong) => return Some(Err(Wrong::Map(format!("its object map is wrong: {wrong}")))),
        };
        let object = match Object::at(&self.bytes, pair) {
            Ok(object) => object,
            Err(wrong) => return Some(Err(Wrong::Object(format!("handle {:X}: {wrong}", pair.handle)))),
        };
        self.taken += object.payload.len();
        if self.taken > self.bytes.len() {
            let length = self.bytes.len();
            return Some(Err(Wrong::Map(format!("its objects come to more than its {length} bytes, so that some lie over one another"))));
        }
        Some(Ok(object))
    }
}

/// What is wrong: with one object, or with all that follow.
enum Wrong {
    Object(String),
    Map(String),
}

impl Iterator for Drawing {
    type Item = Result<Object, String>;

    fn next(&mut self) -> Option<Result<Object, String>> {
        while let Some(object) = self.object() {
            match object {
                Ok(object) => return Some(Ok(object)),
                Err(Wrong::Map(wrong)) => {
                    self.map = None;
                    return Some(Err(format!("{wrong}, and reading ends here; {ADVICE}")));
                }
                Err(Wrong::Object(wrong)) => {
                    self.wrong += 1;
                    if self.wrong <= TOLD {
                        return Some(Err(format!("{wrong}; {ADVICE}")));
                    }
                }
            }
        }
        self.map = None;
        let more = std::mem::take(&mut self.wrong).saturating_sub(TOLD);
        (more > 0).then(|| Err(format!("of its objects {more} more cannot be read; {ADVICE}")))
    }
}
