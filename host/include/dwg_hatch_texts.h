/* Texts of DWG drawings: where one lies, its characters, and code page 1252. Start with dwg_hatch.h; dwg_hatch_codes.h says what holds for every
 * function. */
#ifndef DWG_HATCH_TEXTS_H
#define DWG_HATCH_TEXTS_H

#include "dwg_hatch_codes.h"

#ifdef __cplusplus
extern "C" {
#endif

/* The payloads that a text may lie in: the field `source`. */
typedef enum DwgSource {
    DWG_SOURCE_NONE = 0,  /* there is no text: the name of an absent gradient */
    DWG_SOURCE_MAIN = 1,  /* the main payload */
    DWG_SOURCE_STRING = 2 /* the string payload */
} DwgSource;

/* What a text gives: where it lies. dwg_text_utf8 below makes characters of it. Unit number i starts at bit `position` + i * `width` of its
 * payload; a unit of 16 bits has its low byte first. Empty text has the position after its length code, or the unmoved position.
 *
 * If the last unit is zero, that one unit is dropped: it is not counted, and `padded` is true. So one zero unit alone has count 0 and is padded, and of
 * two closing zeros one is counted. Not padded are a length of 0 and text from a string reader at or past its end bit. */
typedef struct DwgTextAnswer {
    uint64_t refusal;
    size_t place;
    uint8_t source;  /* a number of DwgSource */
    uint8_t width;   /* the bits of a unit, 8 or 16 */
    bool padded;     /* whether a closing zero unit was dropped */
    size_t position; /* the bit position of the first unit */
    size_t count;    /* the unit count, without a unit that was dropped */
} DwgTextAnswer;

/* ---- reading */

/* TV: inline text of a release, in 8-bit units before DWG_R2007 and 16-bit ones from then on. Refused, in this order: DWG_UNKNOWN_RELEASE and
 * DWG_PAYLOAD_TOO_LONG (place: `at`), DWG_TOO_FEW_BITS, DWG_NOT_UTF16; then source, width, padded, position and count are 0. */
DwgTextAnswer dwg_read_tv(const uint8_t *s, size_t length, size_t at, uint64_t release);

/* Text from a string reader that stands at bit `at` of a string payload and has the end bit `end`, which may be any number. At or past its
 * end bit the text is empty and `place` is `at`. Refused, in this order: DWG_PAYLOAD_TOO_LONG (place: `at`), DWG_TOO_FEW_BITS,
 * DWG_TEXT_PAST_END, DWG_NOT_UTF16; then source, width, padded, position and count are 0. */
DwgTextAnswer dwg_read_string_tv(const uint8_t *s, size_t length, size_t at, size_t end);

/* ---- code page 1252 */

/* What a conversion gives: the refusal's number or 0, and how many entries of the output were written, or 0. It reads no bits, so both places are 0. */
typedef struct DwgConversionAnswer {
    uint64_t refusal;
    size_t place;
    size_t string_place;
    size_t count;
} DwgConversionAnswer;

/* Converts bytes of Windows code page 1252, which texts before DWG_R2007 mostly are, to 16-bit units, one for each, by the Unicode Consortium's CP1252.TXT:
 * bytes below 80 and from A0 up (hexadecimal) are units of the same number, and no two bytes share a unit. A reading keeps its units as they are; this is a
 * step of its own. Both lists may have any length, and lie apart.
 *
 * Refused, in this order: DWG_UNDEFINED_CHARACTER if a byte stands for nothing (81, 8D, 8F, 90, 9D); DWG_LIST_TOO_SHORT if units_length is below
 * bytes_length. Then count is 0, and the output unchanged; else count is bytes_length, and entries past it are unchanged. */
DwgConversionAnswer dwg_cp1252_to_units(const uint8_t *bytes, size_t bytes_length, uint16_t *units, size_t units_length);

/* The way back, from 16-bit units to bytes. Refused, in this order: DWG_UNDEFINED_CHARACTER if no byte stands for a unit; DWG_LIST_TOO_SHORT if bytes_length is
 * below units_length. Then count is 0, and the output unchanged; else count is units_length, and entries past it are unchanged. */
DwgConversionAnswer dwg_cp1252_to_bytes(const uint16_t *units, size_t units_length, uint8_t *bytes, size_t bytes_length);

/* ---- characters */

/* What characters 8-bit units stand for. It hangs on the drawing's code page, which is not in a text; the caller says it. */
typedef enum DwgCodePage {
    DWG_CODE_PAGE_UNKNOWN = 0, /* none is said: units above 7F are not known */
    DWG_CODE_PAGE_1252 = 1252  /* Windows code page 1252, Western European; a drawing calls it ANSI_1252 */
} DwgCodePage;

/* The character of an 8-bit unit in a code page; U+FFFD where it is not known, or the page has none. */
static inline uint32_t dwg_character_of(uint8_t unit, DwgCodePage page) {
    uint16_t character = 0xfffdu;
    if (unit <= 0x7fu) {
        return unit;
    }
    if (page == DWG_CODE_PAGE_1252) {
        dwg_cp1252_to_units(&unit, 1, &character, 1); /* where it is refused the character stays */
    }
    return character;
}

/* The unit of a text at a bit; the caller has seen that the payload has it. */
static inline uint32_t dwg_unit_at(const uint8_t *s, uint8_t width, size_t bit) {
    uint32_t shift = (uint32_t)(bit % 8), value = 0;
    size_t bytes = width / 8u, i;
    for (i = bytes; i > 0; i--) {
        const uint8_t *at = s + bit / 8 + (i - 1);
        uint32_t byte = shift == 0 ? at[0] : ((uint32_t)at[0] << shift | (uint32_t)at[1] >> (8 - shift)) & 255u;
        value = value << 8 | byte;
    }
    return value;
}

/* The character of the unit at a bit, and of the one behind it where the two are a pair. `left` is how many units there are from here on, and
 * `*taken` becomes how many the character has. */
static inline uint32_t dwg_character_at(const uint8_t *s, uint8_t width, size_t bit, size_t left, DwgCodePage page, size_t *taken) {
    uint32_t unit = dwg_unit_at(s, width, bit), next = left > 1 ? dwg_unit_at(s, width, bit + width) : 0;
    *taken = 1;
    if (width == 8) {
        return dwg_character_of((uint8_t)unit, page);
    }
    if ((unit & 0xf800u) != 0xd800u) {
        return unit;
    }
    if (unit >= 0xdc00u || (next & 0xfc00u) != 0xdc00u) {
        return 0xfffdu;
    }
    *taken = 2;
    return 0x10000u + ((unit & 0x3ffu) << 10) + (next & 0x3ffu);
}

/* Puts a character's UTF-8 into four bytes, and gives how many it has. */
static inline size_t dwg_put_utf8(uint32_t character, char bytes[4]) {
    static const uint32_t first[] = {0, 0, 0xc0, 0xe0, 0xf0};
    size_t count = character < 0x80u ? 1 : character < 0x800u ? 2 : character < 0x10000u ? 3 : 4, i;
    for (i = count - 1; i > 0; i--) {
        bytes[i] = (char)(0x80u | (character & 0x3fu));
        character >>= 6;
    }
    bytes[0] = (char)(first[count] | character);
    return count;
}

/* A text's characters as UTF-8 in a lent buffer, with a closing zero: whole characters, as many as fit. `s` is the payload that the text lies
 * in; width, position and count are the text's. Gives how many bytes the whole text has without the closing zero, so that the buffer was long
 * enough if this is below `size`; with `size` 0 nothing is written, and `buffer` may be null. Gives SIZE_MAX, and no characters, where the units
 * do not all lie in the payload, which then is another one.
 *
 * 8-bit units above 7F are by `page`. U+FFFD stands for one that is not known, or that the page leaves undefined, and for a 16-bit unit that is half of a
 * pair; in a text that was read there is no such half. A zero among the units is a zero byte.
 *
 * A padded name and the same name without its zero give the same bytes, since the zero that was dropped is not counted; the text's `padded` says which
 * of the two it was. A name with a second closing zero is another one: it has a zero byte more. */
static inline size_t dwg_text_utf8_in_page(DwgCodePage page, const uint8_t *s, size_t length, uint8_t width, size_t position, size_t count, char *buffer,
                                           size_t size) {
    size_t bits = length > SIZE_MAX / 8 ? SIZE_MAX : 8 * length, needed = 0, taken, i;
    bool fits = size > 0;
    if (fits) {
        buffer[0] = 0;
    }
    if (count > 0 && ((width != 8 && width != 16) || position > bits || count > (bits - position) / width)) {
        return SIZE_MAX;
    }
    for (i = 0; i < count; i += taken) {
        char bytes[4];
        size_t more = dwg_put_utf8(dwg_character_at(s, width, position + i * width, count - i, page, &taken), bytes);
        fits = fits && more < size - needed;
        if (fits) {
            memcpy(buffer + needed, bytes, more);
            buffer[needed + more] = 0;
        }
        needed += more;
    }
    return needed;
}

/* The same where the code page is not known: U+FFFD stands for each 8-bit unit above 7F. */
static inline size_t dwg_text_utf8(const uint8_t *s, size_t length, uint8_t width, size_t position, size_t count, char *buffer, size_t size) {
    return dwg_text_utf8_in_page(DWG_CODE_PAGE_UNKNOWN, s, length, width, position, count, buffer, size);
}

#ifdef __cplusplus
}
#endif

#endif
