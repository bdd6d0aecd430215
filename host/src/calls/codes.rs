//! One code at a time: the payload's bytes and a start bit in, the value and the place after it out.
//!
//! Every function refuses a payload above the limit ([`Reason::PayloadTooLong`](crate::Reason)) and then a start past the payload (`TooFewBits`), as
//! document 01's calls do. The value
//! and the place, or the refusal, are what the function's contract in crates/dwg_hatch states.

use crate::boundary::ffi::{self, CodeAnswer, DoubleAnswer, SignedAnswer};
use super::refusal::Refusal;

/// A value and the place after it, or why there is none.
pub type Reading<T> = Result<(T, usize), Refusal>;

/// A handle: which object is meant, and how it is referred to.
#[derive(Clone, Copy, Debug, PartialEq, Eq)]
pub struct Handle {
    /// The 4-bit code.
    pub code: u8,
    /// How many bytes the value takes, 0 to 8.
    pub counter: u8,
    /// The value.
    pub value: u64,
}

/// B: one bit.
///
/// ```
/// assert_eq!(dwg_hatch::read_b(&[0x80], 0), Ok((true, 1)));
/// ```
pub fn read_b(payload: &[u8], start: usize) -> Reading<bool> {
    let (value, place) = number::<u8>(ffi::dwg_read_b, payload, start)?;
    assert!(value < 2, "{OUTSIDE}");
    Ok((value == 1, place))
}

/// BB: two bits.
///
/// ```
/// assert_eq!(dwg_hatch::read_bb(&[0b1011_0000], 1), Ok((1, 3)));
/// ```
pub fn read_bb(payload: &[u8], start: usize) -> Reading<u8> {
    number(ffi::dwg_read_bb, payload, start)
}

/// 3B: three bits, always.
///
/// ```
/// assert_eq!(dwg_hatch::read_3b(&[0b1010_0000], 0), Ok((5, 3)));
/// ```
pub fn read_3b(payload: &[u8], start: usize) -> Reading<u8> {
    number(ffi::dwg_read_3b, payload, start)
}

/// RC: one byte.
///
/// ```
/// assert_eq!(dwg_hatch::read_rc(&[0x0f, 0xf0], 4), Ok((0xff, 12)));
/// ```
pub fn read_rc(payload: &[u8], start: usize) -> Reading<u8> {
    number(ffi::dwg_read_rc, payload, start)
}

/// RS: two bytes, signed.
///
/// ```
/// assert_eq!(dwg_hatch::read_rs(&[0xfe, 0xff], 0), Ok((-2, 16)));
/// ```
pub fn read_rs(payload: &[u8], start: usize) -> Reading<i16> {
    signed(ffi::dwg_read_rs, payload, start)
}

/// RL: four bytes.
///
/// ```
/// assert_eq!(dwg_hatch::read_rl(&[1, 2, 0, 0], 0), Ok((513, 32)));
/// ```
pub fn read_rl(payload: &[u8], start: usize) -> Reading<u32> {
    number(ffi::dwg_read_rl, payload, start)
}

/// RD: eight bytes, a double. A NaN comes as one NaN whatever its pattern; [`read_rd_bits`] gives the pattern.
///
/// ```
/// assert_eq!(dwg_hatch::read_rd(&1.5f64.to_le_bytes(), 0), Ok((1.5, 64)));
/// ```
pub fn read_rd(payload: &[u8], start: usize) -> Reading<f64> {
    double(ffi::dwg_read_rd, payload, start)
}

/// RD as the double's 64 bits, a NaN's too.
///
/// ```
/// assert_eq!(dwg_hatch::read_rd_bits(&[1, 0, 0, 0, 0, 0, 0xf0, 0x7f], 0), Ok((0x7ff0_0000_0000_0001, 64)));
/// ```
pub fn read_rd_bits(payload: &[u8], start: usize) -> Reading<u64> {
    number(ffi::dwg_read_rd_bits, payload, start)
}

/// BS, signed: tag 00 two bytes, 01 one byte without sign, 10 is 0, 11 is 256.
///
/// ```
/// assert_eq!(dwg_hatch::read_bs(&[0x3f, 0xff, 0xc0], 0), Ok((-1, 18)));
/// ```
pub fn read_bs(payload: &[u8], start: usize) -> Reading<i16> {
    signed(ffi::dwg_read_bs, payload, start)
}

/// BS, unsigned.
///
/// ```
/// assert_eq!(dwg_hatch::read_bs_u(&[0x3f, 0xff, 0xc0], 0), Ok((65_535, 18)));
/// ```
pub fn read_bs_u(payload: &[u8], start: usize) -> Reading<u16> {
    number(ffi::dwg_read_bs_u, payload, start)
}

/// BL, signed: tag 00 four bytes, 01 one byte without sign, 10 is 0, 11 is refused.
///
/// ```
/// assert_eq!(dwg_hatch::read_bl(&[0x3f, 0xff, 0xff, 0xff, 0xc0], 0), Ok((-1, 34)));
/// ```
pub fn read_bl(payload: &[u8], start: usize) -> Reading<i32> {
    signed(ffi::dwg_read_bl, payload, start)
}

/// BL, unsigned.
///
/// ```
/// assert_eq!(dwg_hatch::read_bl_u(&[0x3f, 0xff, 0xff, 0xff, 0xc0], 0), Ok((u32::MAX, 34)));
/// ```
pub fn read_bl_u(payload: &[u8], start: usize) -> Reading<u32> {
    number(ffi::dwg_read_bl_u, payload, start)
}

/// BLL: a 3B, then that many bytes.
///
/// ```
/// assert_eq!(dwg_hatch::read_bll(&[0x31, 0x80], 0), Ok((140, 11)));
/// ```
pub fn read_bll(payload: &[u8], start: usize) -> Reading<u64> {
    number(ffi::dwg_read_bll, payload, start)
}

/// BD: tag 00 eight bytes, 01 is 1.0, 10 is 0.0, 11 is refused. A NaN comes as one NaN; [`read_bd_bits`] gives its pattern.
///
/// ```
/// assert_eq!(dwg_hatch::read_bd(&[0x40], 0), Ok((1.0, 2)));
/// assert_eq!(dwg_hatch::read_bd(&[0xc0], 0).unwrap_err().reason, dwg_hatch::Reason::ReservedTag);
/// ```
pub fn read_bd(payload: &[u8], start: usize) -> Reading<f64> {
    double(ffi::dwg_read_bd, payload, start)
}

/// BD as the double's 64 bits, a NaN's too.
///
/// ```
/// assert_eq!(dwg_hatch::read_bd_bits(&[0x40], 0), Ok((1f64.to_bits(), 2)));
/// ```
pub fn read_bd_bits(payload: &[u8], start: usize) -> Reading<u64> {
    number(ffi::dwg_read_bd_bits, payload, start)
}

/// DD: tag 00 the default; 01 four bytes over its low four; 10 two bytes over its bytes 4 and 5, then four over its low four; 11 eight
/// bytes. A NaN as default or value loses its pattern; [`read_dd_bits`] keeps it.
///
/// ```
/// assert_eq!(dwg_hatch::read_dd(&[0x00], 0, 2.5), Ok((2.5, 2)));
/// ```
pub fn read_dd(payload: &[u8], start: usize, default: f64) -> Reading<f64> {
    // SAFETY: see `number`.
    let answer = unsafe { ffi::dwg_read_dd(payload.as_ptr(), payload.len(), start, default) };
    reading(answer.refusal, answer.place, answer.value)
}

/// DD with the default and the value as a double's 64 bits, a NaN's too.
///
/// ```
/// assert_eq!(dwg_hatch::read_dd_bits(&[0x00], 0, 0x7ff0_0000_0000_0001), Ok((0x7ff0_0000_0000_0001, 2)));
/// ```
pub fn read_dd_bits(payload: &[u8], start: usize, default: u64) -> Reading<u64> {
    // SAFETY: see `number`.
    let answer = unsafe { ffi::dwg_read_dd_bits(payload.as_ptr(), payload.len(), start, default) };
    reading(answer.refusal, answer.place, answer.value)
}

/// A handle: a 4-bit code, a 4-bit counter of at most 8, and that many bytes, the high one first.
///
/// ```
/// let (handle, place) = dwg_hatch::read_handle(&[0x52, 0x01, 0x02], 0).unwrap();
/// assert_eq!((handle.code, handle.counter, handle.value, place), (5, 2, 258, 24));
/// ```
pub fn read_handle(payload: &[u8], start: usize) -> Reading<Handle> {
    // SAFETY: see `number`.
    let answer = unsafe { ffi::dwg_read_handle(payload.as_ptr(), payload.len(), start) };
    let handle = Handle { code: answer.code, counter: answer.counter, value: answer.value };
    reading(answer.refusal, answer.place, handle)
}

/// Calls an entry that gives a number without sign, and hands it over as the narrower type that its contract allows.
fn number<T: TryFrom<u64>>(
    entry: unsafe extern "C" fn(*const u8, usize, usize) -> CodeAnswer,
    payload: &[u8],
    start: usize,
) -> Reading<T> {
    // SAFETY: `entry` is a function of ffi.rs. It takes a slice as its pointer and length, reads no byte outside it whatever `start` is,
    // writes nothing and keeps nothing. A slice's pointer is not null, also where the slice is empty.
    let answer = unsafe { entry(payload.as_ptr(), payload.len(), start) };
    reading(answer.refusal, answer.place, narrow(answer.value))
}

/// The same for a signed number.
fn signed<T: TryFrom<i32>>(
    entry: unsafe extern "C" fn(*const u8, usize, usize) -> SignedAnswer,
    payload: &[u8],
    start: usize,
) -> Reading<T> {
    // SAFETY: see `number`.
    let answer = unsafe { entry(payload.as_ptr(), payload.len(), start) };
    reading(answer.refusal, answer.place, narrow(answer.value))
}

/// The same for a double.
fn double(entry: unsafe extern "C" fn(*const u8, usize, usize) -> DoubleAnswer, payload: &[u8], start: usize) -> Reading<f64> {
    // SAFETY: see `number`.
    let answer = unsafe { entry(payload.as_ptr(), payload.len(), start) };
    reading(answer.refusal, answer.place, answer.value)
}

/// Refusal number 0 is a reading. A call over one payload has one place, so the second place is 0.
pub(crate) fn reading<T>(refusal: u64, place: usize, value: T) -> Reading<T> {
    match refusal {
        0 => Ok((value, place)),
        number => Err(Refusal::of_reading(number, place, 0)),
    }
}

pub(crate) const OUTSIDE: &str = "the library gave a value outside its contract: ffi.rs and the library differ";

/// The proved ranges make this lossless. It is not a plain `as`, so that a wrong declaration in ffi.rs cannot pass as a value.
fn narrow<W, T: TryFrom<W>>(wide: W) -> T {
    T::try_from(wide).unwrap_or_else(|_| panic!("{OUTSIDE}"))
}
