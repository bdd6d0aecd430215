/* Entity prefixes of DWG drawings. Start with dwg_hatch.h; dwg_hatch_codes.h says what holds for every function. */
#ifndef DWG_HATCH_PREFIX_H
#define DWG_HATCH_PREFIX_H

#include "dwg_hatch_codes.h"

#ifdef __cplusplus
extern "C" {
#endif

/* The entity modes: the field `mode`. */
typedef enum DwgEntityMode {
    DWG_BY_LAYER = 0,
    DWG_BY_PREVIOUS_ENTITY = 1,
    DWG_IN_BLOCK = 2,
    DWG_RESERVED = 3
} DwgEntityMode;

/* The fields of a prefix but its linetype scale. Absent no_xdictionary and nolinks are true; is_on_layer is true in every reading; other
 * fields that the release lacks are 0 or false. A number that may be absent has its `has` beside it, and is 0 where it is absent. */
typedef struct DwgPrefixFields {
    uint8_t raw_mode;
    uint8_t mode; /* a number of DwgEntityMode */
    uint32_t num_reactors;
    bool no_xdictionary;
    bool binary_chain;
    bool is_on_layer;
    bool non_fixed_ltype;
    uint8_t plotstyle_flag;
    uint8_t material_flag;
    uint8_t shadow_flags;
    int16_t invisibility;
    bool nolinks;
    uint16_t color_raw;
    bool has_color_rgb;
    uint32_t color_rgb;
    bool has_color_alpha;
    uint32_t color_alpha;
    uint8_t ltype_flags;
    bool full_visual_style;
    bool face_visual_style;
    bool edge_visual_style;
    uint8_t lineweight;
    bool had_graphics;
    bool had_extended_data;
    bool has_data_end_bits;
    uint32_t data_end_bits;
} DwgPrefixFields;

/* What a prefix gives: the refusal's number or 0, the bit after its last field (or where the reading stopped), and the fields or 0 for
 * each. */
typedef struct DwgPrefixAnswer {
    uint64_t refusal;
    size_t place;
    double ltype_scale;
    DwgPrefixFields fields;
} DwgPrefixAnswer;

/* The same with the scale as its 64 bits. */
typedef struct DwgPrefixBitsAnswer {
    uint64_t refusal;
    size_t place;
    uint64_t ltype_scale;
    DwgPrefixFields fields;
} DwgPrefixBitsAnswer;

/* The entity prefix at bit `at` of `length` bytes at `s`; `release` is a number of DwgRelease. Refused, in this order: DWG_UNKNOWN_RELEASE and
 * DWG_PAYLOAD_TOO_LONG (place: `at`), then DWG_TOO_FEW_BITS, DWG_RESERVED_TAG, DWG_HANDLE_COUNTER, DWG_NOT_UTF16 and DWG_TOO_MANY_XDATA_BLOCKS
 * as the fields have it; then every other field is 0 or false, is_on_layer too. A scale with a NaN's pattern gives a NaN. */
DwgPrefixAnswer dwg_read_common_entity_data(const uint8_t *s, size_t length, size_t at, uint64_t release);

/* The same with the scale as its 64 bits, bit for bit. On a refusal: as above, the scale 0 too. */
DwgPrefixBitsAnswer dwg_read_common_entity_bits(const uint8_t *s, size_t length, size_t at, uint64_t release);

#ifdef __cplusplus
}
#endif

#endif
