//! The entity prefix: the payload's bytes, a start bit and a release in, what stands before an entity's own fields and the place after it
//! out.
//!
//! A payload may hold any 64 bits as the linetype scale. [`read_common_entity_data`] hands it over as an `f64`, which promises no NaN's
//! pattern; [`read_common_entity_bits`] hands over its bits.

use crate::boundary::ffi::{self, PrefixFields};
use super::codes::{reading, Reading, OUTSIDE};
use super::release::Release;

/// How an entity's owner is found.
#[derive(Clone, Copy, Debug, PartialEq, Eq)]
pub enum EntityMode {
    /// Raw mode 0: the owner is the model space or a paper space.
    ByLayer,
    /// Raw mode 1: the owner is the previous entity's.
    ByPreviousEntity,
    /// Raw mode 2: the owner is a block, whose handle follows the entity's fields.
    InBlock,
    /// Raw mode 3, to which no meaning is given.
    Reserved,
}

/// What a prefix holds. What its release has no field for is 0, false or `None`, but `no_xdictionary` and `nolinks`, which are true then.
///
/// The scale is an `f64`, or its 64 bits ([`CommonEntityBits`]).
#[derive(Clone, Copy, Debug, PartialEq)]
pub struct CommonEntityData<Scale = f64> {
    /// The mode's two bits.
    pub raw_mode: u8,
    /// What they mean.
    pub mode: EntityMode,
    /// How many reactors there are. Their handles are not here.
    pub num_reactors: u32,
    /// Whether there is no extension dictionary; from release 3.
    pub no_xdictionary: bool,
    /// Whether there is binary data; releases 6 and 7.
    pub binary_chain: bool,
    /// Always true.
    pub is_on_layer: bool,
    /// The opposite of release 1's bit for a linetype by layer; else false.
    pub non_fixed_ltype: bool,
    /// Two bits; from release 2.
    pub plotstyle_flag: u8,
    /// Two bits; from release 4.
    pub material_flag: u8,
    /// One byte; from release 4.
    pub shadow_flags: u8,
    /// Bit 0 is set where the entity is invisible.
    pub invisibility: i16,
    /// Whether there are no links to the entities before and after; releases 1 and 2.
    pub nolinks: bool,
    /// The colour's number; from release 3 its high byte says which colour parts follow.
    pub color_raw: u16,
    /// The colour as red, green and blue, if it is there; from release 3.
    pub color_rgb: Option<u32>,
    /// The transparency, if it is there; from release 3.
    pub color_alpha: Option<u32>,
    /// The linetype's scale.
    pub ltype_scale: Scale,
    /// Which linetype, in two bits: 0 the layer's, 1 the block's, 2 a continuous one, 3 one by its handle; from release 2.
    pub ltype_flags: u8,
    /// Whether there is a full, a face and an edge visual style; from release 5.
    pub visual_style_flags: [bool; 3],
    /// The lineweight's code, which is no width; from release 2.
    pub lineweight: u8,
    /// Whether there was a graphics image. Its bytes are passed over.
    pub had_graphics: bool,
    /// Whether there were XDATA blocks. Their bytes are passed over.
    pub had_extended_data: bool,
    /// Where the object's data ends, in bits; release 1.
    pub data_end_bits: Option<u32>,
}

/// The same with the scale as its 64 bits, a NaN's too.
pub type CommonEntityBits = CommonEntityData<u64>;

/// The prefix of an entity of a release, and the place after it.
///
/// ```
/// // The hatch body of the same payload starts where the prefix ends.
/// let (data, place) = dwg_hatch::read_prefix(&[0x85, 0xd0, 0x87, 0x40], 0, dwg_hatch::Release::R2000)?;
/// assert_eq!((data.color_raw, data.lineweight, place), (256, 29, 26));
/// # Ok::<(), dwg_hatch::Refusal>(())
/// ```
pub fn read_prefix(payload: &[u8], start: usize, release: Release) -> Reading<CommonEntityData> {
    read_common_entity_data(payload, start, release.number())
}

/// The same by a release's number, which may be any. A NaN as scale comes as one NaN whatever its pattern; [`read_common_entity_bits`] gives
/// the pattern.
///
/// Refuses a release that is not 1 to 7 ([`Reason::UnknownRelease`](crate::Reason)), then a payload above the limit (`PayloadTooLong`), then as the
/// fields do, in their order (`TooFewBits`, `ReservedTag`, `HandleCounter`, `NotUtf16`, `TooManyXdataBlocks`).
///
/// ```
/// let (data, place) = dwg_hatch::read_common_entity_data(&[0x85, 0xd0, 0x87, 0x40], 0, 2)?;
/// assert_eq!((data.color_raw, data.ltype_scale, data.lineweight, place), (256, 1.0, 29, 26));
/// assert_eq!((data.mode, data.color_rgb), (dwg_hatch::EntityMode::ByLayer, None));
///
/// // An XDATA block whose handle has the counter 9.
/// let refusal = dwg_hatch::read_common_entity_data(&[0x40, 0x42, 0x40], 0, 2).unwrap_err();
/// assert_eq!((refusal.reason, refusal.place), (dwg_hatch::Reason::HandleCounter, 18));
///
/// let refusal = dwg_hatch::read_common_entity_data(&[0x85], 0, 8).unwrap_err();
/// assert_eq!(refusal.to_string(), "refusal 9 at bit 0: the release is not 1 to 7; name a release from 1 (R14) to 7 (R2018)");
/// # Ok::<(), dwg_hatch::Refusal>(())
/// ```
pub fn read_common_entity_data(payload: &[u8], start: usize, release_number: u64) -> Reading<CommonEntityData> {
    // SAFETY: the function of ffi.rs takes a slice as its pointer and length, reads no byte outside it whatever the numbers are, writes
    // nothing but its answer and keeps nothing. A slice's pointer is not null, also where the slice is empty.
    let answer = unsafe { ffi::dwg_read_common_entity_data(payload.as_ptr(), payload.len(), start, release_number) };
    reading(answer.refusal, answer.place, data(answer.fields, answer.ltype_scale))
}

/// The same with the scale as its 64 bits.
///
/// ```
/// let (data, place) = dwg_hatch::read_common_entity_bits(&[0x85, 0xd0, 0x87, 0x40], 0, 2)?;
/// assert_eq!((data.ltype_scale, place), (1f64.to_bits(), 26));
/// # Ok::<(), dwg_hatch::Refusal>(())
/// ```
pub fn read_common_entity_bits(payload: &[u8], start: usize, release_number: u64) -> Reading<CommonEntityBits> {
    // SAFETY: see `read_common_entity_data`.
    let answer = unsafe { ffi::dwg_read_common_entity_bits(payload.as_ptr(), payload.len(), start, release_number) };
    reading(answer.refusal, answer.place, data(answer.fields, answer.ltype_scale))
}

/// The fields of an answer, which are all 0 on a refusal.
fn data<Scale>(fields: PrefixFields, ltype_scale: Scale) -> CommonEntityData<Scale> {
    CommonEntityData {
        raw_mode: fields.raw_mode,
        mode: mode(fields.mode),
        num_reactors: fields.num_reactors,
        no_xdictionary: fields.no_xdictionary,
        binary_chain: fields.binary_chain,
        is_on_layer: fields.is_on_layer,
        non_fixed_ltype: fields.non_fixed_ltype,
        plotstyle_flag: fields.plotstyle_flag,
        material_flag: fields.material_flag,
        shadow_flags: fields.shadow_flags,
        invisibility: fields.invisibility,
        nolinks: fields.nolinks,
        color_raw: fields.color_raw,
        color_rgb: fields.has_color_rgb.then_some(fields.color_rgb),
        color_alpha: fields.has_color_alpha.then_some(fields.color_alpha),
        ltype_scale,
        ltype_flags: fields.ltype_flags,
        visual_style_flags: [fields.full_visual_style, fields.face_visual_style, fields.edge_visual_style],
        lineweight: fields.lineweight,
        had_graphics: fields.had_graphics,
        had_extended_data: fields.had_extended_data,
        data_end_bits: fields.has_data_end_bits.then_some(fields.data_end_bits),
    }
}

/// A mode by its number. Another number is looked for, so that a wrong declaration in ffi.rs cannot pass as a mode.
fn mode(number: u8) -> EntityMode {
    match number {
        0 => EntityMode::ByLayer,
        1 => EntityMode::ByPreviousEntity,
        2 => EntityMode::InBlock,
        3 => EntityMode::Reserved,
        _ => panic!("{OUTSIDE}"),
    }
}

#[cfg(test)]
mod tests {
    use super::*;

    #[test]
    fn numbers_that_may_be_absent() {
        let read = |payload: &[u8], release| read_common_entity_data(payload, 0, release).unwrap().0;
        let both = read(&[0x9c, 0x01, 0x68, 0x00, 0x30, 0x20, 0x1c, 0x27, 0x21, 0x68, 0x1c], 3);
        assert_eq!((both.color_rgb, both.color_alpha, both.data_end_bits), (Some(0xc201_0203), Some(200), None));
        assert_eq!((both.mode, both.raw_mode), (EntityMode::Reserved, 3));
        let zero = read(&[0x85, 0x80, 0x24, 0x12, 0x00, 0x0a, 0xbf, 0xc0], 6);
        assert_eq!((zero.color_rgb, zero.color_alpha, zero.visual_style_flags), (None, Some(0), [false, true, false]));
        let end = read(&[0x80, 0x80, 0x60, 0x40, 0x2a, 0x0a, 0x20, 0xf1, 0xfd, 0xfe], 1);
        assert_eq!((end.data_end_bits, end.invisibility, end.mode), (Some(0x0102_0304), -2, EntityMode::ByPreviousEntity));
    }

    #[test]
    fn a_scale_that_is_no_number_keeps_its_bits() {
        let payload = [0x85, 0x80, 0x10, 0x00, 0x00, 0x00, 0x00, 0x0f, 0x0f, 0xf0, 0x80, 0x40];
        let (bits, place) = read_common_entity_bits(&payload, 0, 2).unwrap();
        assert_eq!((bits.ltype_scale, bits.lineweight, place), (0xfff0_0000_0000_0001, 1, 90));
        let (data, place) = read_common_entity_data(&payload, 0, 2).unwrap();
        assert!(data.ltype_scale.is_nan());
        assert_eq!((data.lineweight, place), (1, 90));
    }

    #[test]
    fn both_entries_refuse_alike() {
        let cases = [(&[0x85][..], 0, 8, 9, 0), (&[], 0, 2, 1, 0), (&[0x86], 0, 2, 2, 7), (&[], 3, 2, 1, 3)];
        for (payload, start, release, number, place) in cases {
            let refusal = crate::Refusal::of_reading(number, place, 0);
            assert_eq!(read_common_entity_data(payload, start, release), Err(refusal));
            assert_eq!(read_common_entity_bits(payload, start, release), Err(refusal));
        }
    }

    #[test]
    #[should_panic = "outside its contract"]
    fn there_is_no_fifth_mode() {
        mode(4);
    }
}
