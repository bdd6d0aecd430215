//! Objects' records of every release, and whole drawings of R2000, laid out by the facts that docs/PAYLOADS.md names. Written from these, and not from
//! the tool. The samples are laid out by it too (examples/samples). Beside it stands the module `layouts`.
#![allow(dead_code)]

use super::layouts::{Bits, Numbers};

/// The type of a hatch.
pub const HATCH: usize = 78;

/// An entity to lay out.
pub struct Record {
    pub release: u64,
    pub type_number: usize,
    pub handle: u64,
    /// Its own fields.
    pub fields: Bits,
    /// Its string stream, from release 4 on; empty where it has no text.
    pub strings: Bits,
    /// The handles behind its fields.
    pub handles: Vec<u64>,
}

/// A record that is laid out, and its places in bits.
#[derive(Debug)]
pub struct Laid {
    pub bytes: Vec<u8>,
    pub prefix: usize,
    pub body: usize,
    /// Where its own fields end.
    pub fields_end: usize,
    /// Where its string stream starts and ends, if it has one.
    pub strings: Option<[usize; 2]>,
    /// Where its handles begin.
    pub handles: usize,
}

impl Record {
    /// Lays it out. From release 5 on ten zero bits stand in for the type, whose code no paper gives.
    pub fn lay_out(&self, n: &mut Numbers) -> Laid {
        let mut start = Bits(Vec::new());
        match self.release {
            ..5 => start.bs(n, self.type_number),
            _ => start.number(0, 10),
        }
        let mut own = Bits(Vec::new());
        own.handle(self.handle);
        let size_bits = if (2..=4).contains(&self.release) { 32 } else { 0 };
        let prefix = start.0.len() + size_bits + own.0.len();
        let body = prefix + prefix_of(self.release, 0).0.len();
        let fields_end = body + self.fields.0.len();
        let strings = (self.release >= 4 && !self.strings.0.is_empty()).then(|| [fields_end, fields_end + self.strings.0.len()]);
        let trailer = if self.release >= 4 { trailer(self.strings.0.len()) } else { Bits(Vec::new()) };
        let handles = strings.map_or(fields_end, |strings| strings[1]) + trailer.0.len();
        let laid = Laid { bytes: Vec::new(), prefix, body, fields_end, strings, handles };
        if size_bits > 0 {
            start.raw(handles as u64, 4);
        }
        let prefix = prefix_of(self.release, fields_end as u64);
        let mut all = Bits([start.0, own.0, prefix.0, self.fields.0.clone(), self.strings.0.clone(), trailer.0].concat());
        assert_eq!(all.0.len(), handles);
        self.handles.iter().for_each(|handle| all.handle(*handle));
        let bytes = all.bytes(0);
        if self.release < 5 { Laid { bytes, ..laid } } else { laid.behind_the_handles_size(bytes) }
    }
}

impl Laid {
    /// With the size of the handle stream in front, as a modular char: all bits from the handles' begin on.
    fn behind_the_handles_size(self, bytes: Vec<u8>) -> Laid {
        let size = modular_char((8 * bytes.len() - self.handles) as u64);
        let bits = 8 * size.len();
        let strings = self.strings.map(|places| places.map(|place| place + bits));
        let [prefix, body, fields_end, handles] = [self.prefix, self.body, self.fields_end, self.handles].map(|place| place + bits);
        Laid { bytes: [size, bytes].concat(), prefix, body, fields_end, strings, handles }
    }
}

/// What stands between a string stream and the handles: its size in bits, with its high part in front where it needs one, and that it is there.
fn trailer(size: usize) -> Bits {
    let mut bits = Bits(Vec::new());
    if size >= 0x8000 {
        bits.raw((size >> 15) as u64, 2);
        bits.raw((size & 0x7fff | 0x8000) as u64, 2);
    } else if size > 0 {
        bits.raw(size as u64, 2);
    }
    bits.number(u64::from(size > 0), 1);
    bits
}

/// An entity prefix without XDATA and graphics: colour 256, or from release 3 on an rgb value; linetype scale 1.0; lineweight 29. Release 1 has
/// where the entity's own fields end. Its codes are the same in every run, so its length is too.
pub fn prefix_of(release: u64, data_end: u64) -> Bits {
    let n = &mut Numbers(100 + release);
    let mut bits = Bits(Vec::new());
    bits.bs(n, 0);
    bits.number(0, 1);
    if release == 1 {
        bits.raw(data_end, 4);
    }
    bits.number(2, 2);
    bits.bl(n, 0);
    let switches = match release {
        1 | 2 => 3 - release,
        3..=5 => 1,
        _ => 2,
    };
    bits.number(1, switches as u32);
    colour(&mut bits, n, release);
    bits.bd(n, 1f64.to_bits());
    if release >= 2 {
        bits.number(0, 4);
    }
    if release >= 4 {
        bits.number(0, 2);
        bits.raw(0, 1);
    }
    if release >= 5 {
        bits.number(0, 3);
    }
    bits.bs(n, 0);
    if release >= 2 {
        bits.raw(29, 1);
    }
    bits
}

/// The colour 256, or from release 3 on 8000 (hexadecimal), which brings an rgb value.
fn colour(bits: &mut Bits, n: &mut Numbers, release: u64) {
    if release < 3 {
        return bits.bs(n, 256);
    }
    bits.bs(n, 0x8000);
    bits.bl(n, 0xc2ff_8000);
}

impl Bits {
    /// A handle with code 0: its value in as few bytes as it needs, high one first.
    pub fn handle(&mut self, value: u64) {
        let bytes = (64 - value.leading_zeros()).div_ceil(8);
        self.number(u64::from(bytes), 8);
        self.number(value, 8 * bytes);
    }
}

/// Where the objects begin in the drawings below: behind three section locators.
pub const FIRST_OBJECT: usize = 0x19 + 3 * 9;

/// A drawing of R2000 with these bytes behind its section locators, and the object map that is made for them. Of the sections only the map has bytes, and
/// what no fact is at hand for is 0; a CAD program would not open it.
pub fn drawing(objects: &[u8], map: &[u8]) -> Vec<u8> {
    let mut file = b"AC1015".to_vec();
    file.resize(0x15, 0);
    file.extend(3u32.to_le_bytes());
    let place = (FIRST_OBJECT + objects.len()) as u32;
    for (number, place, length) in [(0, 0, 0), (1, 0, 0), (2, place, map.len() as u32)] {
        file.push(number);
        file.extend([place, length].map(u32::to_le_bytes).concat());
    }
    [&file, objects, map].concat()
}

/// A drawing of these objects, each a handle and its payload, in the file's order; the map has so many pairs in a block, by their handles.
pub fn drawing_of(objects: &[(u64, Vec<u8>)], pairs_of_block: usize) -> Vec<u8> {
    let mut bytes = Vec::new();
    let mut pairs = Vec::new();
    for (handle, payload) in objects {
        pairs.push((*handle, (FIRST_OBJECT + bytes.len()) as i64));
        bytes.extend(modular_short(payload.len()));
        bytes.extend(payload);
    }
    pairs.sort_unstable();
    let blocks: Vec<u8> = pairs.chunks(pairs_of_block).flat_map(block).collect();
    drawing(&bytes, &[blocks, end()].concat())
}

/// A block of an object map, with zeros for its check sum.
pub fn block(pairs: &[(u64, i64)]) -> Vec<u8> {
    let mut bytes = Vec::new();
    let mut last = (0, 0);
    for (handle, place) in pairs {
        bytes.extend(modular_char(handle - last.0));
        bytes.extend(signed_modular_char(place - last.1));
        last = (*handle, *place);
    }
    let length = u16::try_from(bytes.len() + 2).expect("a block's length").to_be_bytes();
    [&length[..], &bytes, &[0, 0]].concat()
}

/// The block that ends a map.
pub fn end() -> Vec<u8> {
    vec![0, 2, 0, 0]
}

pub fn modular_char(mut value: u64) -> Vec<u8> {
    let mut bytes = Vec::new();
    while value > 0x7f {
        bytes.push(value as u8 | 0x80);
        value >>= 7;
    }
    bytes.push(value as u8);
    bytes
}

pub fn signed_modular_char(value: i64) -> Vec<u8> {
    let mut left = value.unsigned_abs();
    let mut bytes = Vec::new();
    while left > 0x3f {
        bytes.push(left as u8 | 0x80);
        left >>= 7;
    }
    bytes.push(left as u8 | if value < 0 { 0x40 } else { 0 });
    bytes
}

pub fn modular_short(mut value: usize) -> Vec<u8> {
    let mut bytes = Vec::new();
    while value > 0x7fff {
        bytes.extend((value as u16 | 0x8000).to_le_bytes());
        value >>= 15;
    }
    bytes.extend((value as u16).to_le_bytes());
    bytes
}
