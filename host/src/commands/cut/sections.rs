//! The sections of an R2000 drawing: where its object map lies.

use std::ops::Range;

/// Where the number of section locators stands, and where the first of them begins.
const COUNT: usize = 0x15;
const FIRST: usize = 0x19;

/// A locator: the section's number (1 byte), where it begins and its length (4 bytes each).
const LOCATOR: usize = 9;

/// The object map's number.
const OBJECT_MAP: u8 = 2;

/// Where the object map lies in the file, or what is wrong with it.
pub fn object_map(bytes: &[u8]) -> Result<Range<usize>, String> {
    let length = bytes.len();
    let count = long(bytes, COUNT).ok_or_else(|| format!("it has {length} bytes, and its section locators begin at byte {FIRST}"))?;
    let locators = &bytes[FIRST.min(length)..];
    if count > (locators.len() / LOCATOR) as u64 {
        return Err(format!("it states {count} section locators at byte {COUNT}, and has {length} bytes"));
    }
    let mut locators = locators.chunks_exact(LOCATOR).take(count as usize);
    let locator = locators.find(|locator| locator[0] == OBJECT_MAP);
    let found = locator.and_then(|locator| long(locator, 1).zip(long(locator, 5)));
    let (begin, size) = found.ok_or_else(|| format!("none of its {count} section locators is section {OBJECT_MAP}, the object map"))?;
    let end = begin + size;
    if end > length as u64 {
        return Err(format!("its object map would lie at bytes {begin} to {end}, and it has {length} bytes"));
    }
    Ok(begin as usize..end as usize)
}

/// 4 bytes as a number, low byte first.
fn long(bytes: &[u8], place: usize) -> Option<u64> {
    bytes.get(place..)?.first_chunk().map(|bytes| u64::from(u32::from_le_bytes(*bytes)))
}
