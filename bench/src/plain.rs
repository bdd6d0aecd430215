//! How near the limit the port is: the best plain Rust that we can write for the bodies of polylines of this bench, and for nothing else. It is no
//! reader: it knows that there is no gradient, no name, no edge, no pattern and no seed, and looks at nothing that it need not. Safe code, eight
//! bytes at once, and two walks as the port has them: one that tests every length and counts, one that fills.

/// The bits before the path count: gradient, names, plane and switches, all in their shortest codes.
const FRONT: usize = 14 + 2 + 8 + 2 + 2;

/// Eight bytes from a bit on, high byte first.
fn high(bytes: &[u8], at: usize) -> Option<u64> {
    let (first, shift) = (at / 8, at % 8);
    let part: &[u8; 9] = bytes.get(first..)?.first_chunk()?;
    let whole = u64::from_be_bytes(*part.first_chunk()?);
    Some(whole << shift | u64::from(part[8]) >> (8 - shift))
}

/// A count or flags: the tag 00, and four bytes.
fn long(bytes: &[u8], at: usize) -> Option<(u32, usize)> {
    let word = high(bytes, at)?;
    (word >> 62 == 0).then_some((((word << 2 >> 32) as u32).swap_bytes(), at + 34))
}

/// A path up to its vertices: whether they have bulges, how many, and the place after the count.
fn head(bytes: &[u8], at: usize) -> Option<(bool, usize, usize)> {
    let (flags, at) = long(bytes, at)?;
    let switches = high(bytes, at)?;
    let (count, at) = long(bytes, at + 2)?;
    (flags == 3).then_some((switches >> 63 == 1, count as usize, at))
}

/// A bulge's tag.
fn tag(bytes: &[u8], at: usize) -> Option<u16> {
    let pair = [*bytes.get(at / 8)?, bytes.get(at / 8 + 1).copied().unwrap_or(0)];
    Some(u16::from_be_bytes(pair) << (at % 8) >> 14)
}

/// The place behind a bulge.
fn behind_bulge(bytes: &[u8], at: usize) -> Option<usize> {
    match tag(bytes, at)? {
        0 => Some(at + 66),
        1 | 2 => Some(at + 2),
        _ => None,
    }
}

/// The first walk: how many numbers there are, or none where a path is not whole.
fn measured(bytes: &[u8], paths: usize, mut at: usize) -> Option<usize> {
    let mut numbers = 0;
    for _ in 0..paths {
        let (bulge, count, first) = head(bytes, at)?;
        at = first;
        if bulge {
            for _ in 0..count {
                at = behind_bulge(bytes, at + 128)?;
            }
        } else {
            at += 128 * count;
        }
        if at + 2 > 8 * bytes.len() {
            return None;
        }
        numbers += count * if bulge { 3 } else { 2 };
        at += 2; // no boundary handles
    }
    Some(numbers)
}

/// A run of raw doubles.
fn fill_run(bytes: &[u8], at: usize, out: &mut [u64]) -> Option<()> {
    let shift = at % 8;
    let part = bytes.get(at / 8..)?.get(..8 * out.len() + usize::from(shift > 0))?;
    if shift == 0 {
        for (value, bytes) in out.iter_mut().zip(part.chunks_exact(8)) {
            *value = u64::from_le_bytes(*bytes.first_chunk()?);
        }
    } else {
        for (value, bytes) in out.iter_mut().zip(part.windows(9).step_by(8)) {
            let whole = u64::from_be_bytes(*bytes.first_chunk()?);
            *value = (whole << shift | u64::from(bytes[8]) >> (8 - shift)).swap_bytes();
        }
    }
    Some(())
}

/// A vertex with its bulge, and the place behind it.
fn fill_vertex(bytes: &[u8], at: usize, out: &mut [u64]) -> Option<usize> {
    out[0] = high(bytes, at)?.swap_bytes();
    out[1] = high(bytes, at + 64)?.swap_bytes();
    let (value, next) = match tag(bytes, at + 128)? {
        0 => (high(bytes, at + 130)?.swap_bytes(), at + 194),
        1 => (1.0f64.to_bits(), at + 130),
        _ => (0, at + 130),
    };
    out[2] = value;
    Some(next)
}

/// The second walk.
fn filled(bytes: &[u8], paths: usize, mut at: usize, mut out: &mut [u64]) -> Option<()> {
    for _ in 0..paths {
        let (bulge, count, first) = head(bytes, at)?;
        at = first;
        let (mine, rest) = std::mem::take(&mut out).split_at_mut_checked(count * if bulge { 3 } else { 2 })?;
        if bulge {
            for vertex in mine.chunks_exact_mut(3) {
                at = fill_vertex(bytes, at, vertex)?;
            }
        } else {
            fill_run(bytes, at, mine)?;
            at += 128 * count;
        }
        out = rest;
        at += 2;
    }
    Some(())
}

/// Both walks; true if the body was one of this bench's, whole, and the list long enough.
pub fn read(bytes: &[u8], out: &mut [u64]) -> bool {
    let Some((paths, at)) = long(bytes, FRONT) else { return false };
    let Some(numbers) = measured(bytes, paths as usize, at) else { return false };
    out.get_mut(..numbers).is_some_and(|out| filled(bytes, paths as usize, at, out).is_some())
}
