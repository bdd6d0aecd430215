//! How the structs of ffi.rs lie in memory.

use super::*;
use std::mem::{offset_of, size_of};

// The sizes and offsets that the x86-64 C convention gives the structs of lib.rt; the archive holds code for no other machine.
#[test]
fn answers_lie_as_c_lays_them() {
    assert_eq!(size_of::<usize>(), 8);
    assert_eq!(size_of::<CodeAnswer>(), 24);
    assert_eq!([offset_of!(CodeAnswer, refusal), offset_of!(CodeAnswer, place), offset_of!(CodeAnswer, value)], [0, 8, 16]);
    assert_eq!(size_of::<SignedAnswer>(), 24);
    assert_eq!([offset_of!(SignedAnswer, refusal), offset_of!(SignedAnswer, place), offset_of!(SignedAnswer, value)], [0, 8, 16]);
    assert_eq!(size_of::<DoubleAnswer>(), 24);
    assert_eq!([offset_of!(DoubleAnswer, refusal), offset_of!(DoubleAnswer, place), offset_of!(DoubleAnswer, value)], [0, 8, 16]);
    assert_eq!(size_of::<HandleAnswer>(), 32);
    assert_eq!([offset_of!(HandleAnswer, refusal), offset_of!(HandleAnswer, place)], [0, 8]);
    let parts = [offset_of!(HandleAnswer, code), offset_of!(HandleAnswer, counter), offset_of!(HandleAnswer, value)];
    assert_eq!(parts, [16, 17, 24]);
}

#[test]
fn a_text_lies_as_c_lays_it() {
    assert_eq!(size_of::<TextAnswer>(), 40);
    assert_eq!([offset_of!(TextAnswer, refusal), offset_of!(TextAnswer, place)], [0, 8]);
    assert_eq!([offset_of!(TextAnswer, source), offset_of!(TextAnswer, width), offset_of!(TextAnswer, padded)], [16, 17, 18]);
    assert_eq!([offset_of!(TextAnswer, position), offset_of!(TextAnswer, count)], [24, 32]);
    assert_eq!([offset_of!(TextFields, source), offset_of!(TextFields, width), offset_of!(TextFields, padded)], [0, 1, 2]);
    assert_eq!([offset_of!(TextFields, position), offset_of!(TextFields, count)], [8, 16]);
}

#[test]
fn a_prefix_lies_as_c_lays_it() {
    assert_eq!([size_of::<PrefixFields>(), size_of::<PrefixAnswer>(), size_of::<PrefixBitsAnswer>()], [48, 72, 72]);
    assert_eq!([offset_of!(PrefixAnswer, refusal), offset_of!(PrefixAnswer, place)], [0, 8]);
    assert_eq!([offset_of!(PrefixAnswer, ltype_scale), offset_of!(PrefixAnswer, fields)], [16, 24]);
    assert_eq!([offset_of!(PrefixBitsAnswer, refusal), offset_of!(PrefixBitsAnswer, place)], [0, 8]);
    assert_eq!([offset_of!(PrefixBitsAnswer, ltype_scale), offset_of!(PrefixBitsAnswer, fields)], [16, 24]);
}

// Each field that is wider than a byte and the byte before it; all others follow each other without room between.
#[test]
fn the_fields_of_a_prefix_lie_as_c_lays_them() {
    assert_eq!([offset_of!(PrefixFields, mode), offset_of!(PrefixFields, num_reactors)], [1, 4]);
    assert_eq!([offset_of!(PrefixFields, shadow_flags), offset_of!(PrefixFields, invisibility)], [14, 16]);
    assert_eq!([offset_of!(PrefixFields, nolinks), offset_of!(PrefixFields, color_raw)], [18, 20]);
    assert_eq!([offset_of!(PrefixFields, has_color_rgb), offset_of!(PrefixFields, color_rgb)], [22, 24]);
    assert_eq!([offset_of!(PrefixFields, has_color_alpha), offset_of!(PrefixFields, color_alpha)], [28, 32]);
    assert_eq!([offset_of!(PrefixFields, has_data_end_bits), offset_of!(PrefixFields, data_end_bits)], [43, 44]);
}

#[test]
fn a_gradient_lies_as_c_lays_it() {
    assert_eq!([size_of::<GradientColor>(), size_of::<GradientColorBits>(), size_of::<TextFields>()], [24, 24, 24]);
    assert_eq!([offset_of!(GradientColor, unknown_short), offset_of!(GradientColor, rgb)], [8, 12]);
    assert_eq!([offset_of!(GradientColorBits, unknown_short), offset_of!(GradientColorBits, ignored_color_byte)], [8, 16]);
    assert_eq!([size_of::<GradientFields>(), size_of::<GradientBits>()], [456, 456]);
    assert_eq!([offset_of!(GradientFields, angle), offset_of!(GradientFields, is_single_color)], [8, 24]);
    assert_eq!([offset_of!(GradientBits, tint), offset_of!(GradientBits, colors), offset_of!(GradientBits, name)], [32, 48, 432]);
}

#[test]
fn a_hatch_lies_as_c_lays_it() {
    assert_eq!([size_of::<BodyFields>(), size_of::<LengthsAnswer>(), size_of::<SeedPart>()], [72, 40, 16]);
    assert_eq!([offset_of!(SeedPart, begin), offset_of!(SeedPart, count)], [0, 8]);
    assert_eq!([offset_of!(BodyFields, solid_fill), offset_of!(BodyFields, pattern_double)], [24, 26]);
    assert_eq!([offset_of!(BodyFields, pattern_style), offset_of!(BodyFields, num_paths)], [28, 32]);
    assert_eq!([size_of::<BodyAnswer>(), size_of::<BodyBitsAnswer>()], [608, 608]);
    assert_eq!([offset_of!(BodyAnswer, gradient), offset_of!(BodyAnswer, elevation)], [24, 480]);
    assert_eq!([offset_of!(BodyBitsAnswer, pixel_size), offset_of!(BodyBitsAnswer, fields)], [528, 536]);
}

// What a call takes lies as what a call gave: a caller in C hands over the very struct.
#[test]
fn a_given_hatch_lies_as_an_answer_does() {
    assert_eq!([size_of::<TextGiven>(), offset_of!(TextGiven, padded), offset_of!(TextGiven, position)], [size_of::<TextFields>(), 2, 8]);
    assert_eq!([offset_of!(TextGiven, source), offset_of!(TextGiven, width), offset_of!(TextGiven, count)], [0, 1, 16]);
    assert_eq!([size_of::<GradientGiven>(), size_of::<GradientBitsGiven>()], [size_of::<GradientFields>(), size_of::<GradientBits>()]);
    assert_eq!([offset_of!(GradientGiven, angle), offset_of!(GradientGiven, colors)], [8, 48]);
    assert_eq!([offset_of!(GradientBitsGiven, num_colors), offset_of!(GradientBitsGiven, name)], [40, 432]);
    assert_eq!([size_of::<FieldsGiven>(), size_of::<BodyGiven>(), size_of::<BodyBitsGiven>()], [72, 608, 608]);
    assert_eq!([offset_of!(FieldsGiven, solid_fill), offset_of!(FieldsGiven, pattern_double)], [24, 26]);
    assert_eq!([offset_of!(FieldsGiven, pattern_style), offset_of!(FieldsGiven, numbers_used)], [28, 64]);
    assert_eq!([offset_of!(BodyGiven, gradient), offset_of!(BodyGiven, extrusion_z), offset_of!(BodyGiven, fields)], [24, 504, 536]);
    assert_eq!([offset_of!(BodyBitsGiven, elevation), offset_of!(BodyBitsGiven, fields)], [480, 536]);
    assert_eq!(size_of::<MoveAnswer>(), 24);
    assert_eq!([offset_of!(MoveAnswer, refusal), offset_of!(MoveAnswer, place), offset_of!(MoveAnswer, string_place)], [0, 8, 16]);
}

#[test]
fn a_conversion_lies_as_c_lays_it() {
    assert_eq!(size_of::<ConversionAnswer>(), 32);
    assert_eq!([offset_of!(ConversionAnswer, refusal), offset_of!(ConversionAnswer, place)], [0, 8]);
    assert_eq!([offset_of!(ConversionAnswer, string_place), offset_of!(ConversionAnswer, count)], [16, 24]);
}
