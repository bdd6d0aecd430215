//! Names converted by code page 1252, to units and back: the port, and a plain loop over a table that promises what the port does: all tests first, and where
//! one fails nothing is stored. The table is asked of the port, byte by byte, so that it does not stand here once more.

use std::hint::black_box;
use std::sync::OnceLock;

use crate::ffi;
use crate::sides::{Repeat, Row, repeat};

/// Twelve bytes, two of them accented letters: "Ø 80 / Küche". All are their own units.
pub const NAME: &[u8; 12] = b"\xd8 80 / K\xfcche";

/// The same with a byte from 80 to 9F (hexadecimal), whose unit is another number: "Ø 80 – Küche".
pub const WITH_DASH: &[u8; 12] = b"\xd8 80 \x96 K\xfcche";

/// What stands in the loop's table for a byte without a unit.
const UNDEFINED: u16 = 0xffff;

fn port_to_units(bytes: &[u8], units: &mut [u16]) -> ffi::ConversionAnswer {
    // SAFETY: each pointer is a slice's own with its length, and the lists are lent for the call alone.
    unsafe { ffi::dwg_cp1252_to_units(bytes.as_ptr(), bytes.len(), units.as_mut_ptr(), units.len()) }
}

fn port_to_bytes(units: &[u16], bytes: &mut [u8]) -> ffi::ConversionAnswer {
    // SAFETY: as above.
    unsafe { ffi::dwg_cp1252_to_bytes(units.as_ptr(), units.len(), bytes.as_mut_ptr(), bytes.len()) }
}

fn table() -> &'static [u16; 256] {
    static TABLE: OnceLock<[u16; 256]> = OnceLock::new();
    TABLE.get_or_init(|| {
        std::array::from_fn(|byte| {
            let mut unit = [UNDEFINED];
            port_to_units(&[byte as u8], &mut unit);
            unit[0]
        })
    })
}

/// The loop: the refusal's number, or none.
fn plain_to_units(table: &[u16; 256], bytes: &[u8], units: &mut [u16]) -> Result<usize, u64> {
    if bytes.iter().any(|byte| table[usize::from(*byte)] == UNDEFINED) {
        return Err(14);
    }
    let output = units.get_mut(..bytes.len()).ok_or(11u64)?;
    output.iter_mut().zip(bytes).for_each(|(unit, byte)| *unit = table[usize::from(*byte)]);
    Ok(bytes.len())
}

/// The byte of a unit: most are themselves, and the others are looked for among the 32 that are not.
fn byte_of(table: &[u16; 256], unit: u16) -> Option<u8> {
    match unit {
        0..=0x7f | 0xa0..=0xff => Some(unit as u8),
        UNDEFINED => None,
        _ => table[0x80..0xa0].iter().position(|known| *known == unit).map(|at| 0x80 + at as u8),
    }
}

fn plain_to_bytes(table: &[u16; 256], units: &[u16], bytes: &mut [u8]) -> Result<usize, u64> {
    if units.iter().any(|unit| byte_of(table, *unit).is_none()) {
        return Err(14);
    }
    let output = bytes.get_mut(..units.len()).ok_or(11u64)?;
    output.iter_mut().zip(units).for_each(|(byte, unit)| *byte = byte_of(table, *unit).unwrap_or_default());
    Ok(units.len())
}

/// Both sides convert the name alike, and the way back gives it again.
fn check(bytes: &[u8]) -> Result<Vec<u16>, String> {
    let (mut units, mut same) = (vec![0; bytes.len()], vec![0; bytes.len()]);
    let (answer, count) = (port_to_units(bytes, &mut units), plain_to_units(table(), bytes, &mut same));
    if (answer.refusal, answer.count, Ok(answer.count)) != (0, bytes.len(), count) || units != same {
        return Err("the port and the loop do not convert it alike".to_string());
    }
    let (mut again, mut other) = (vec![0; bytes.len()], vec![0; bytes.len()]);
    let (answer, count) = (port_to_bytes(&units, &mut again), plain_to_bytes(table(), &units, &mut other));
    if (answer.refusal, answer.count, Ok(answer.count)) != (0, bytes.len(), count) || again != bytes || other != bytes {
        return Err("the way back does not give it again".to_string());
    }
    Ok(units)
}

fn sides_to_units(bytes: Vec<u8>) -> Vec<Repeat> {
    let (length, table, same) = (bytes.len(), table(), bytes.clone());
    let (mut units, mut others) = (vec![0; length], vec![0; length]);
    vec![
        repeat(move || assert_eq!(plain_to_units(black_box(table), black_box(&bytes), black_box(&mut units)), Ok(length))),
        repeat(move || assert_eq!(port_to_units(black_box(&same), black_box(&mut others)).count, length)),
    ]
}

fn sides_to_bytes(units: Vec<u16>) -> Vec<Repeat> {
    let (length, table, same) = (units.len(), table(), units.clone());
    let (mut bytes, mut others) = (vec![0; length], vec![0; length]);
    vec![
        repeat(move || assert_eq!(plain_to_bytes(black_box(table), black_box(&units), black_box(&mut bytes)), Ok(length))),
        repeat(move || assert_eq!(port_to_bytes(black_box(&same), black_box(&mut others)).count, length)),
    ]
}

/// The loop and the port, from bytes to units, or back.
pub fn of_name(name: &str, bytes: Vec<u8>, back: bool) -> Result<Row, String> {
    let length = bytes.len();
    let units = check(&bytes).map_err(|why| format!("{name}: {why}"))?;
    let sides = if back { sides_to_bytes(units) } else { sides_to_units(bytes) };
    Ok(Row { name: name.to_string(), bytes: length, sides })
}
