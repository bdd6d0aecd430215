//! One call by each side, and how a row is repeated.

use std::hint::black_box;

use crate::bitcursor::BitCursor;
use crate::bodies::Body;
use crate::common_entity;
use crate::entities::hatch::{self, Hatch};
use crate::ffi;
use crate::plain;
use crate::version::Version;

/// The release of the bodies and the prefixes.
pub const RELEASE: u64 = 5;
const VERSION: Version = Version::R2010;

/// Calls so many times.
pub type Repeat = Box<dyn FnMut(u32)>;

/// A row: the Rust, the port with doubles as f64, and as their 64 bits, all on the same bytes; and, of bodies of polylines, the plain Rust for
/// these alone (src/plain.rs). Of a conversion a plain loop and the port, and no more; of a string start five sides (src/starts.rs).
pub struct Row {
    pub name: String,
    pub bytes: usize,
    pub sides: Vec<Repeat>,
}

pub fn repeat(mut call: impl FnMut() + 'static) -> Repeat {
    Box::new(move |times| {
        for _ in 0..times {
            call();
        }
    })
}

pub fn rust(bytes: &[u8]) -> Option<Hatch> {
    hatch::decode(&mut BitCursor::new(bytes), VERSION).ok()
}

pub fn port(bytes: &[u8], numbers: &mut [f64], words: &mut [u32]) -> ffi::BodyAnswer {
    let (n, w) = (numbers.len(), words.len());
    // SAFETY: each pointer is a slice's own with its length, and the lists are lent for the call alone.
    unsafe { ffi::dwg_hatch_decode(bytes.as_ptr(), bytes.len(), 0, RELEASE, numbers.as_mut_ptr(), n, words.as_mut_ptr(), w) }
}

pub fn port_bits(bytes: &[u8], numbers: &mut [u64], words: &mut [u32]) -> ffi::BodyBitsAnswer {
    let (n, w) = (numbers.len(), words.len());
    // SAFETY: as above.
    unsafe { ffi::dwg_hatch_decode_bits(bytes.as_ptr(), bytes.len(), 0, RELEASE, numbers.as_mut_ptr(), n, words.as_mut_ptr(), w) }
}

/// Both sides read the body, and every number of the port's lists is the one that was laid out.
fn check(body: &Body) -> Result<(), String> {
    let (mut numbers, mut bits, mut words) = (vec![0.0; body.numbers.len()], vec![0; body.numbers.len()], vec![0; body.words]);
    let read = rust(&body.bytes).ok_or("the Rust refuses it")?;
    let answer = port(&body.bytes, &mut numbers, &mut words);
    if answer.refusal != 0 {
        return Err(format!("the port refuses it: {} at {}", answer.refusal, answer.place));
    }
    let fields = &answer.fields;
    if (fields.num_paths, fields.numbers_used, fields.words_used) != (read.paths.len(), body.numbers.len(), body.words) {
        return Err("the port's counts are not those laid out".to_string());
    }
    if port_bits(&body.bytes, &mut bits, &mut words).refusal != 0 || bits != body.numbers {
        return Err("the port's 64-bit list is not what was laid out".to_string());
    }
    if numbers.iter().zip(&body.numbers).any(|(got, laid)| got.to_bits() != *laid) {
        return Err("the port's list is not what was laid out".to_string());
    }
    bits.fill(0);
    if body.plain && !(plain::read(&body.bytes, &mut bits) && bits == body.numbers) {
        return Err("the plain Rust's list is not what was laid out".to_string());
    }
    Ok(())
}

/// A hatch body, read from bit 0 without a reader.
pub fn of_body(body: Body, checked: bool) -> Result<Row, String> {
    if checked {
        check(&body).map_err(|why| format!("{}: {why}", body.name))?;
    }
    let [a, b, c, d] = [body.bytes.clone(), body.bytes.clone(), body.bytes.clone(), body.bytes];
    let (mut numbers, mut bits, mut list) = (vec![0.0; body.numbers.len()], vec![0; body.numbers.len()], vec![0; body.numbers.len()]);
    let (mut words, mut more) = (vec![0; body.words], vec![0; body.words]);
    let bytes = a.len();
    let mut sides = vec![
        repeat(move || drop(black_box(rust(black_box(&a))))),
        repeat(move || drop(black_box(port(black_box(&b), &mut numbers, &mut words)))),
        repeat(move || drop(black_box(port_bits(black_box(&c), &mut bits, &mut more)))),
    ];
    if body.plain {
        sides.push(repeat(move || {
            black_box(plain::read(black_box(&d), black_box(&mut list)));
        }));
    }
    Ok(Row { name: body.name, bytes, sides })
}

/// An entity prefix, from bit 0.
pub fn of_prefix(name: &str, bytes: Vec<u8>, checked: bool) -> Result<Row, String> {
    let bytes: &'static [u8] = bytes.leak(); // a few bytes, kept to the program's end
    let theirs = |bytes: &[u8]| common_entity::read_common_entity_data(&mut BitCursor::new(bytes), VERSION).ok();
    // SAFETY: the pointer is the slice's own with its length.
    let ours = |bytes: &[u8]| unsafe { ffi::dwg_read_common_entity_data(bytes.as_ptr(), bytes.len(), 0, RELEASE) };
    // SAFETY: as above.
    let ours_bits = |bytes: &[u8]| unsafe { ffi::dwg_read_common_entity_bits(bytes.as_ptr(), bytes.len(), 0, RELEASE) };
    let alike = || {
        let (Some(read), answer, bits) = (theirs(bytes), ours(bytes), ours_bits(bytes)) else { return false };
        let same = (answer.refusal, answer.ltype_scale, answer.fields.lineweight) == (0, read.ltype_scale, read.lineweight);
        same && (bits.refusal, bits.ltype_scale) == (0, read.ltype_scale.to_bits())
    };
    if checked && !alike() {
        return Err(format!("{name}: the port does not read what the Rust reads"));
    }
    let sides = vec![
        repeat(move || drop(black_box(theirs(black_box(bytes))))),
        repeat(move || drop(black_box(ours(black_box(bytes))))),
        repeat(move || drop(black_box(ours_bits(black_box(bytes))))),
    ];
    Ok(Row { name: name.to_string(), bytes: bytes.len(), sides })
}
