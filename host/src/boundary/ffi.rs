//! The exported C functions of crates/dwg_hatch, the structs of crates/boundary that they answer with or take, and nothing else.
//!
//! No compiler checks these declarations against the Rattle source: a wrong one would be undefined behaviour. So they are few, they
//! stand here alone, in the order of lib.rt, bodies.rt, seeds.rt, moves.rt and code_pages.rt, and `host/tests/boundary.rs` compares the texts.
//!
//! A Rattle `&[u8]` is a pointer and a length; the pointer is never null, also where there are no bytes. A `&mut [u64]` is the same, and
//! its entries may be written.

/// What a code of a number without sign gives: the refusal's number or 0, the final place, and the value or 0.
#[repr(C)]
pub struct CodeAnswer {
    pub refusal: u64,
    pub place: usize,
    pub value: u64,
}

/// The same of a signed number.
#[repr(C)]
pub struct SignedAnswer {
    pub refusal: u64,
    pub place: usize,
    pub value: i32,
}

/// The same of a double.
#[repr(C)]
pub struct DoubleAnswer {
    pub refusal: u64,
    pub place: usize,
    pub value: f64,
}

/// The same of a handle.
#[repr(C)]
pub struct HandleAnswer {
    pub refusal: u64,
    pub place: usize,
    pub code: u8,
    pub counter: u8,
    pub value: u64,
}

/// What a text gives: the refusal's number or 0, the final place, and the text's numbers or 0 for each: its payload (1 main, 2 string, 0
/// none), the bits of a unit, whether a closing zero unit was dropped, the bit position of the first unit and the unit count.
#[repr(C)]
pub struct TextAnswer {
    pub refusal: u64,
    pub place: usize,
    pub source: u8,
    pub width: u8,
    pub padded: bool,
    pub position: usize,
    pub count: usize,
}

/// The fields of a prefix but its linetype scale, under the Rust's names; a number that may be absent has its `has` beside it.
#[repr(C)]
pub struct PrefixFields {
    pub raw_mode: u8,
    pub mode: u8,
    pub num_reactors: u32,
    pub no_xdictionary: bool,
    pub binary_chain: bool,
    pub is_on_layer: bool,
    pub non_fixed_ltype: bool,
    pub plotstyle_flag: u8,
    pub material_flag: u8,
    pub shadow_flags: u8,
    pub invisibility: i16,
    pub nolinks: bool,
    pub color_raw: u16,
    pub has_color_rgb: bool,
    pub color_rgb: u32,
    pub has_color_alpha: bool,
    pub color_alpha: u32,
    pub ltype_flags: u8,
    pub full_visual_style: bool,
    pub face_visual_style: bool,
    pub edge_visual_style: bool,
    pub lineweight: u8,
    pub had_graphics: bool,
    pub had_extended_data: bool,
    pub has_data_end_bits: bool,
    pub data_end_bits: u32,
}

/// What a prefix gives: the refusal's number or 0, the final place, and the fields or 0 for each. The mode's number is 0 by layer, 1 by
/// the previous entity, 2 in a block, 3 reserved.
#[repr(C)]
pub struct PrefixAnswer {
    pub refusal: u64,
    pub place: usize,
    pub ltype_scale: f64,
    pub fields: PrefixFields,
}

/// The same with the scale as its 64 bits.
#[repr(C)]
pub struct PrefixBitsAnswer {
    pub refusal: u64,
    pub place: usize,
    pub ltype_scale: u64,
    pub fields: PrefixFields,
}

/// A colour of a gradient: hatch_format's struct.
#[repr(C)]
pub struct GradientColor {
    pub unknown_double: f64,
    pub unknown_short: i16,
    pub rgb: u32,
    pub ignored_color_byte: u8,
}

/// The same with the double as its 64 bits.
#[repr(C)]
pub struct GradientColorBits {
    pub unknown_double: u64,
    pub unknown_short: i16,
    pub rgb: u32,
    pub ignored_color_byte: u8,
}

/// Where a text lies, as [`TextAnswer`] has it.
#[repr(C)]
pub struct TextFields {
    pub source: u8,
    pub width: u8,
    pub padded: bool,
    pub position: usize,
    pub count: usize,
}

/// The gradient of a hatch, or 0 for each where there is none; colours past their count are 0.
#[repr(C)]
pub struct GradientFields {
    pub present: bool,
    pub angle: f64,
    pub shift: f64,
    pub is_single_color: u32,
    pub tint: f64,
    pub num_colors: usize,
    pub colors: [GradientColor; 16],
    pub name: TextFields,
}

/// The same with each double as its 64 bits.
#[repr(C)]
pub struct GradientBits {
    pub present: bool,
    pub angle: u64,
    pub shift: u64,
    pub is_single_color: u32,
    pub tint: u64,
    pub num_colors: usize,
    pub colors: [GradientColorBits; 16],
    pub name: TextFields,
}

/// The fields of a hatch that are no doubles, under the Rust's names, the counts of what it holds, and the lengths used of both lists.
#[repr(C)]
pub struct BodyFields {
    pub pattern_name: TextFields,
    pub solid_fill: bool,
    pub associative: bool,
    pub pattern_double: bool,
    pub pattern_style: u16,
    pub pattern_type: u16,
    pub num_paths: usize,
    pub num_pattern_lines: usize,
    pub num_seed_points: usize,
    pub words_used: usize,
    pub numbers_used: usize,
}

/// What a hatch gives: the refusal's number or 0, the final place in each payload, and the fields or 0 for each.
#[repr(C)]
pub struct BodyAnswer {
    pub refusal: u64,
    pub place: usize,
    pub string_place: usize,
    pub gradient: GradientFields,
    pub elevation: f64,
    pub extrusion_x: f64,
    pub extrusion_y: f64,
    pub extrusion_z: f64,
    pub pattern_angle: f64,
    pub pattern_scale: f64,
    pub pixel_size: f64,
    pub fields: BodyFields,
}

/// The same with each double as its 64 bits.
#[repr(C)]
pub struct BodyBitsAnswer {
    pub refusal: u64,
    pub place: usize,
    pub string_place: usize,
    pub gradient: GradientBits,
    pub elevation: u64,
    pub extrusion_x: u64,
    pub extrusion_y: u64,
    pub extrusion_z: u64,
    pub pattern_angle: u64,
    pub pattern_scale: u64,
    pub pixel_size: u64,
    pub fields: BodyFields,
}

/// What a measuring gives: the refusal's number or 0, the final place in each payload, and the lengths that the lists must have or 0.
#[repr(C)]
pub struct LengthsAnswer {
    pub refusal: u64,
    pub place: usize,
    pub string_place: usize,
    pub words: usize,
    pub numbers: usize,
}

/// A part of the list of numbers: its first index, and how many numbers it has.
#[repr(C)]
pub struct SeedPart {
    pub begin: usize,
    pub count: usize,
}

/// A text as a call takes it: [`TextFields`] with its switch as a byte, since a caller's may be any.
#[repr(C)]
pub struct TextGiven {
    pub source: u8,
    pub width: u8,
    pub padded: u8,
    pub position: usize,
    pub count: usize,
}

/// A gradient as a call takes it: [`GradientFields`] with its switches as bytes.
#[repr(C)]
pub struct GradientGiven {
    pub present: u8,
    pub angle: f64,
    pub shift: f64,
    pub is_single_color: u32,
    pub tint: f64,
    pub num_colors: usize,
    pub colors: [GradientColor; 16],
    pub name: TextGiven,
}

/// The same with each double as its 64 bits.
#[repr(C)]
pub struct GradientBitsGiven {
    pub present: u8,
    pub angle: u64,
    pub shift: u64,
    pub is_single_color: u32,
    pub tint: u64,
    pub num_colors: usize,
    pub colors: [GradientColorBits; 16],
    pub name: TextGiven,
}

/// [`BodyFields`] with its switches as bytes.
#[repr(C)]
pub struct FieldsGiven {
    pub pattern_name: TextGiven,
    pub solid_fill: u8,
    pub associative: u8,
    pub pattern_double: u8,
    pub pattern_style: u16,
    pub pattern_type: u16,
    pub num_paths: usize,
    pub num_pattern_lines: usize,
    pub num_seed_points: usize,
    pub words_used: usize,
    pub numbers_used: usize,
}

/// A hatch as a call takes it: [`BodyAnswer`], of the same size and with the same offsets, but for the types of its switches.
#[repr(C)]
pub struct BodyGiven {
    pub refusal: u64,
    pub place: usize,
    pub string_place: usize,
    pub gradient: GradientGiven,
    pub elevation: f64,
    pub extrusion_x: f64,
    pub extrusion_y: f64,
    pub extrusion_z: f64,
    pub pattern_angle: f64,
    pub pattern_scale: f64,
    pub pixel_size: f64,
    pub fields: FieldsGiven,
}

/// The same with each double as its 64 bits.
#[repr(C)]
pub struct BodyBitsGiven {
    pub refusal: u64,
    pub place: usize,
    pub string_place: usize,
    pub gradient: GradientBitsGiven,
    pub elevation: u64,
    pub extrusion_x: u64,
    pub extrusion_y: u64,
    pub extrusion_z: u64,
    pub pattern_angle: u64,
    pub pattern_scale: u64,
    pub pixel_size: u64,
    pub fields: FieldsGiven,
}

/// What a move of the origin gives: the refusal's number or 0; the places are 0.
#[repr(C)]
pub struct MoveAnswer {
    pub refusal: u64,
    pub place: usize,
    pub string_place: usize,
}

/// What a conversion gives: the refusal's number or 0; the places, which are 0; and how many entries of the output were written, or 0.
#[repr(C)]
pub struct ConversionAnswer {
    pub refusal: u64,
    pub place: usize,
    pub string_place: usize,
    pub count: usize,
}

unsafe extern "C" {
    pub fn dwg_read_b(s: *const u8, length: usize, at: usize) -> CodeAnswer;
    pub fn dwg_read_bb(s: *const u8, length: usize, at: usize) -> CodeAnswer;
    pub fn dwg_read_3b(s: *const u8, length: usize, at: usize) -> CodeAnswer;
    pub fn dwg_read_rc(s: *const u8, length: usize, at: usize) -> CodeAnswer;
    pub fn dwg_read_rs(s: *const u8, length: usize, at: usize) -> SignedAnswer;
    pub fn dwg_read_rl(s: *const u8, length: usize, at: usize) -> CodeAnswer;
    pub fn dwg_read_rd(s: *const u8, length: usize, at: usize) -> DoubleAnswer;
    pub fn dwg_read_rd_bits(s: *const u8, length: usize, at: usize) -> CodeAnswer;
    pub fn dwg_read_bs(s: *const u8, length: usize, at: usize) -> SignedAnswer;
    pub fn dwg_read_bs_u(s: *const u8, length: usize, at: usize) -> CodeAnswer;
    pub fn dwg_read_bl(s: *const u8, length: usize, at: usize) -> SignedAnswer;
    pub fn dwg_read_bl_u(s: *const u8, length: usize, at: usize) -> CodeAnswer;
    pub fn dwg_read_bll(s: *const u8, length: usize, at: usize) -> CodeAnswer;
    pub fn dwg_read_bd(s: *const u8, length: usize, at: usize) -> DoubleAnswer;
    pub fn dwg_read_bd_bits(s: *const u8, length: usize, at: usize) -> CodeAnswer;
    pub fn dwg_read_dd(s: *const u8, length: usize, at: usize, default: f64) -> DoubleAnswer;
    pub fn dwg_read_dd_bits(s: *const u8, length: usize, at: usize, default: u64) -> CodeAnswer;
    pub fn dwg_read_handle(s: *const u8, length: usize, at: usize) -> HandleAnswer;
    pub fn dwg_read_tv(s: *const u8, length: usize, at: usize, release: u64) -> TextAnswer;
    pub fn dwg_read_string_tv(s: *const u8, length: usize, at: usize, end: usize) -> TextAnswer;
    pub fn dwg_read_common_entity_data(s: *const u8, length: usize, at: usize, release: u64) -> PrefixAnswer;
    pub fn dwg_read_common_entity_bits(s: *const u8, length: usize, at: usize, release: u64) -> PrefixBitsAnswer;
    pub fn dwg_hatch_decode(
        main: *const u8,
        main_length: usize,
        start: usize,
        release: u64,
        numbers: *mut f64,
        numbers_length: usize,
        words: *mut u32,
        words_length: usize,
    ) -> BodyAnswer;
    pub fn dwg_hatch_decode_bits(
        main: *const u8,
        main_length: usize,
        start: usize,
        release: u64,
        bits: *mut u64,
        bits_length: usize,
        words: *mut u32,
        words_length: usize,
    ) -> BodyBitsAnswer;
    pub fn dwg_hatch_decode_with_strings(
        main: *const u8,
        main_length: usize,
        start: usize,
        string: *const u8,
        string_length: usize,
        string_start: usize,
        string_end: usize,
        release: u64,
        numbers: *mut f64,
        numbers_length: usize,
        words: *mut u32,
        words_length: usize,
    ) -> BodyAnswer;
    pub fn dwg_hatch_decode_with_strings_bits(
        main: *const u8,
        main_length: usize,
        start: usize,
        string: *const u8,
        string_length: usize,
        string_start: usize,
        string_end: usize,
        release: u64,
        bits: *mut u64,
        bits_length: usize,
        words: *mut u32,
        words_length: usize,
    ) -> BodyBitsAnswer;
    pub fn dwg_hatch_measure(main: *const u8, main_length: usize, start: usize, release: u64) -> LengthsAnswer;
    pub fn dwg_hatch_measure_with_strings(
        main: *const u8,
        main_length: usize,
        start: usize,
        string: *const u8,
        string_length: usize,
        string_start: usize,
        string_end: usize,
        release: u64,
    ) -> LengthsAnswer;
    pub fn dwg_hatch_seed_points(numbers_used: usize, num_seed_points: usize, length: usize) -> SeedPart;
    pub fn dwg_hatch_move_origin(
        hatch: BodyGiven,
        words: *const u32,
        words_length: usize,
        numbers: *mut f64,
        numbers_length: usize,
        x: f64,
        y: f64,
    ) -> MoveAnswer;
    pub fn dwg_hatch_move_origin_bits(
        hatch: BodyBitsGiven,
        words: *const u32,
        words_length: usize,
        bits: *mut u64,
        bits_length: usize,
        x: u64,
        y: u64,
    ) -> MoveAnswer;
    pub fn dwg_cp1252_to_units(bytes: *const u8, bytes_length: usize, units: *mut u16, units_length: usize) -> ConversionAnswer;
    pub fn dwg_cp1252_to_bytes(units: *const u16, units_length: usize, bytes: *mut u8, bytes_length: usize) -> ConversionAnswer;
}

#[cfg(test)]
#[path = "layouts.rs"]
mod layouts;
