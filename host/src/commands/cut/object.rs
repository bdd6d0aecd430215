//! One object of an R2000 drawing: its payload, and what the payload begins with. Each number is tested before it is used.

use std::ops::Range;

use dwg_hatch::{read_bs_u, read_common_entity_bits, read_handle, read_rl, HatchBody, Refusal, Release};

use super::modular;
use super::object_map::Pair;

/// The release of the drawings that are cut, by its number.
pub const RELEASE: u64 = Release::R2000 as u64;

/// An object. Bits are the payload's.
#[derive(Clone, Debug, PartialEq, Eq)]
pub struct Object {
    /// Its handle.
    pub handle: u64,
    /// Its place in the file, in bytes: that of its length.
    pub place: usize,
    /// Where its payload lies in the file.
    pub payload: Range<usize>,
    /// The number of its type.
    pub type_number: u16,
    /// Where its prefix begins, if it is an entity.
    pub prefix_start: usize,
    /// Where its own fields end and its handles begin.
    pub fields_end: usize,
}

impl Object {
    /// The object that the map names, or what is wrong with it.
    pub fn at(bytes: &[u8], pair: Pair) -> Result<Object, String> {
        let Pair { handle, place } = pair;
        let length = bytes.len();
        let inside = usize::try_from(place).ok().filter(|place| *place < length);
        let place = inside.ok_or_else(|| format!("the object map puts it at byte {place}, and the file has {length}"))?;
        let (size, start) = modular::short(bytes, place).map_err(|wrong| format!("its length at byte {place} {wrong}"))?;
        let size = usize::try_from(size).ok().filter(|size| *size <= length - start);
        let end = start + size.ok_or_else(|| format!("its length at byte {place} passes the file's end at byte {length}"))?;
        let beginning = |refusal: Refusal| format!("its type, size and handle at byte {start} cannot be read: {refusal}");
        let (type_number, fields_end, own, prefix_start) = begin(&bytes[start..end]).map_err(beginning)?;
        if own != handle {
            return Err(format!("the object at byte {place}, where the object map puts it, has the handle {own:X}"));
        }
        if fields_end < prefix_start || fields_end > 8 * (end - start) {
            let bits = 8 * (end - start);
            return Err(format!("its fields would end at bit {fields_end}, and not between its handle's end and the payload's, bits {prefix_start} and {bits}"));
        }
        Ok(Object { handle, place, payload: start..end, type_number, prefix_start, fields_end })
    }

    /// Where the entity's own fields start: behind its prefix.
    pub fn body_start(&self, payload: &[u8]) -> Result<usize, String> {
        let read = read_common_entity_bits(payload, self.prefix_start, RELEASE);
        let (_, start) = read.map_err(|refusal| format!("its prefix cannot be read: {refusal}"))?;
        if start > self.fields_end {
            return Err(format!("its prefix ends at bit {start}, behind its fields' end at bit {}", self.fields_end));
        }
        Ok(start)
    }

    /// The bytes that a hatch's body is read from, and what is wrong if it is read to another bit than its fields end at; one that is refused says so
    /// when it is read.
    ///
    /// They end with the byte in which the fields end. Only if the body is refused so they are the whole payload: a count of boundary handles is tested
    /// by the bits after it, and these are the handles'.
    pub fn body<'a>(&self, payload: &'a [u8], start: usize) -> (&'a [u8], Option<String>) {
        let end = |payload: &[u8]| HatchBody { payload, start, release_number: RELEASE, strings: None }.measure().map(|lengths| lengths.places.main);
        let fields = &payload[..self.fields_end.div_ceil(8)];
        let (bytes, end) = end(fields).map_or_else(|_| (payload, end(payload).ok()), |end| (fields, Some(end)));
        let wrong = |end: usize| format!("its body is read to bit {end}, and by the drawing its fields end at bit {}: do not rely on it", self.fields_end);
        (bytes, end.filter(|end| *end != self.fields_end).map(wrong))
    }
}

/// What a payload begins with: its type, its size in bits, its own handle; and the place behind them.
fn begin(payload: &[u8]) -> Result<(u16, usize, u64, usize), Refusal> {
    let (type_number, place) = read_bs_u(payload, 0)?;
    let (size, place) = read_rl(payload, place)?;
    let (handle, place) = read_handle(payload, place)?;
    Ok((type_number, size as usize, handle.value, place))
}
