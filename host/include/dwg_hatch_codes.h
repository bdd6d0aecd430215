/* Bit codes of DWG drawings, refusals and releases: the part of dwg_hatch.h that reads one code. Start with dwg_hatch.h.
 *
 * What holds for every function of the four headers:
 *
 * - A payload is a pointer to its first byte and its length in bytes. Bits are numbered from 0, from the top bit of each byte. A start bit
 *   may be any number; one past the payload is refused at that bit, DWG_TOO_FEW_BITS (dwg_read_string_tv asks its end bit first; a string reader's
 *   start past its payload is refused at that payload's end, see dwg_hatch.h).
 * - `release` is a number of DwgRelease; any other is refused, DWG_UNKNOWN_RELEASE.
 * - A payload above DWG_PAYLOAD_LIMIT bytes is refused, DWG_PAYLOAD_TOO_LONG, and none of its bytes is read.
 * - Every call comes to an end and gives one of two: the whole reading, with `refusal` 0, or a refusal: `refusal` is a number of
 *   DwgRefusal, the places say where the reading stopped, or are 0 where no bits are read, every other field is 0, and a lent list is unchanged.
 * - Asked of the caller, and nothing else is: a pointer is never null, also where its length is 0, is aligned for what it points to, and
 *   the whole length may be read, of a list also written; a payload or a list is at most PTRDIFF_MAX bytes; a list lies apart from every
 *   other list and payload of the call; nothing else writes to them during the call. Two payloads may overlap.
 * - A call keeps no state, allocates nothing and keeps no pointer. Calls may run at the same time in any threads, also on one payload; a
 *   list is lent to one call at a time.
 * - Doubles are IEEE 754 binary64. A function that ends in _bits gives and takes each double as its 64 bits, whatever they are; the others give the
 *   double with these 64 bits, except that where they are a NaN's they give a NaN and promise no pattern of it.
 *
 * The archive is for x86-64 and its System V calling convention. Link: cc host.c libdwg_hatch.a
 */
#ifndef DWG_HATCH_CODES_H
#define DWG_HATCH_CODES_H

#if !defined(__x86_64__) || defined(_WIN32)
#error "libdwg_hatch.a links into x86-64 programs with the System V calling convention alone: build for such a machine"
#endif

#include <stdbool.h>
#include <stddef.h>
#include <stdint.h>
#include <string.h>

#ifdef __cplusplus
extern "C" {
#endif

/* The most bytes that a payload may have. */
#define DWG_PAYLOAD_LIMIT 268435456u

/* The releases: the parameter `release`. */
typedef enum DwgRelease {
    DWG_R14 = 1,   /* a drawing of it begins with AC1014 */
    DWG_R2000 = 2, /* AC1015 */
    DWG_R2004 = 3, /* AC1018 */
    DWG_R2007 = 4, /* AC1021 */
    DWG_R2010 = 5, /* AC1024 */
    DWG_R2013 = 6, /* AC1027 */
    DWG_R2018 = 7  /* AC1032 */
} DwgRelease;

/* Why a reading stopped, or a call gave nothing: the numbers of the field `refusal`. */
typedef enum DwgRefusal {
    DWG_READ = 0,                     /* it did not stop: the reading is whole */
    DWG_TOO_FEW_BITS = 1,             /* too few bits for the next read */
    DWG_RESERVED_TAG = 2,             /* a BL or BD starts with the tag 11 */
    DWG_COUNT_TOO_LARGE = 3,          /* a count is above its cap or above the bits left */
    DWG_EDGE_KIND = 4,                /* an edge's kind is not 1 to 4 */
    DWG_HANDLE_COUNTER = 5,           /* a handle's counter is above 8 */
    DWG_TEXT_PAST_END = 6,            /* a string reader's text passes its end bit */
    DWG_NOT_UTF16 = 7,                /* a text's 16-bit units are not UTF-16 */
    DWG_TOO_MANY_XDATA_BLOCKS = 8,    /* 256 nonzero XDATA blocks */
    DWG_UNKNOWN_RELEASE = 9,          /* the release is not 1 to 7 */
    DWG_PAYLOAD_TOO_LONG = 10,        /* a payload is above DWG_PAYLOAD_LIMIT bytes */
    DWG_LIST_TOO_SHORT = 11,          /* a lent list is too short for the hatch or the converted text, or record and lists do not fit each other */
    DWG_OTHER_PLANE = 12,             /* the extrusion is not (0, 0, 1) */
    DWG_COORDINATE_OUT_OF_RANGE = 13, /* the origin or a coordinate to be moved is not a number within 2^40 of 0 */
    DWG_UNDEFINED_CHARACTER = 14      /* a byte, or a unit on the way back, stands for nothing in code page 1252 */
} DwgRefusal;

/* What a refusal's number means, in a few words; never null, also for a number that is none of them. */
static inline const char *dwg_refusal_meaning(uint64_t refusal) {
    switch (refusal) {
    case DWG_READ: return "the reading is whole";
    case DWG_TOO_FEW_BITS: return "too few bits are left for the next read";
    case DWG_RESERVED_TAG: return "a BL or BD starts with the tag 11, which stands for no number";
    case DWG_COUNT_TOO_LARGE: return "a count is above its cap, or above the bits that are left";
    case DWG_EDGE_KIND: return "an edge's kind is not 1 to 4";
    case DWG_HANDLE_COUNTER: return "a handle's counter is above 8";
    case DWG_TEXT_PAST_END: return "a text of the string payload passes the string reader's end bit";
    case DWG_NOT_UTF16: return "a text's 16-bit units are not UTF-16";
    case DWG_TOO_MANY_XDATA_BLOCKS: return "there are 256 nonzero XDATA blocks, which is more than are read";
    case DWG_UNKNOWN_RELEASE: return "the release is not 1 to 7";
    case DWG_PAYLOAD_TOO_LONG: return "a payload is longer than 268,435,456 bytes";
    case DWG_LIST_TOO_SHORT: return "a lent list is too short for the hatch or the converted text, or record and lists do not fit each other";
    case DWG_OTHER_PLANE: return "the hatch's extrusion is not (0, 0, 1), so it does not lie in the drawing's own plane";
    case DWG_COORDINATE_OUT_OF_RANGE: return "the origin or a coordinate to be moved is not a number within 1,099,511,627,776 (2^40) of 0";
    case DWG_UNDEFINED_CHARACTER: return "a byte, or a unit on the way back, stands for nothing in code page 1252";
    default: return "this number is not in the table of refusals";
    }
}

/* What a code gives: the refusal's number or 0, the bit after the code (or where the reading stopped), and the value or 0. */
typedef struct DwgCodeAnswer {
    uint64_t refusal;
    size_t place;
    uint64_t value;
} DwgCodeAnswer;

/* The same of a signed number. */
typedef struct DwgSignedAnswer {
    uint64_t refusal;
    size_t place;
    int32_t value;
} DwgSignedAnswer;

/* The same of a double. */
typedef struct DwgDoubleAnswer {
    uint64_t refusal;
    size_t place;
    double value;
} DwgDoubleAnswer;

/* The same of a handle. */
typedef struct DwgHandleAnswer {
    uint64_t refusal;
    size_t place;
    uint8_t code;
    uint8_t counter;
    uint64_t value;
} DwgHandleAnswer;

/* ---- codes of `length` bytes at `s`, from bit `at` on. Each may be refused for DWG_PAYLOAD_TOO_LONG (place: `at`) and then for
 * DWG_TOO_FEW_BITS, and says what else refuses it; then `place` is the bit where the reading stopped, and all other fields are 0, a double
 * +0.0. A number cut short stops after its last whole byte. */

/* B: one bit, 0 or 1. */
DwgCodeAnswer dwg_read_b(const uint8_t *s, size_t length, size_t at);

/* BB: two bits. */
DwgCodeAnswer dwg_read_bb(const uint8_t *s, size_t length, size_t at);

/* 3B: three bits. */
DwgCodeAnswer dwg_read_3b(const uint8_t *s, size_t length, size_t at);

/* RC: one byte. */
DwgCodeAnswer dwg_read_rc(const uint8_t *s, size_t length, size_t at);

/* RS: two bytes, signed. */
DwgSignedAnswer dwg_read_rs(const uint8_t *s, size_t length, size_t at);

/* RL: four bytes, unsigned. */
DwgCodeAnswer dwg_read_rl(const uint8_t *s, size_t length, size_t at);

/* RD: a double. A NaN's pattern gives a NaN. */
DwgDoubleAnswer dwg_read_rd(const uint8_t *s, size_t length, size_t at);

/* RD, as its 64 bits, bit for bit. */
DwgCodeAnswer dwg_read_rd_bits(const uint8_t *s, size_t length, size_t at);

/* BS, signed 16 bits. */
DwgSignedAnswer dwg_read_bs(const uint8_t *s, size_t length, size_t at);

/* BS, unsigned 16 bits. */
DwgCodeAnswer dwg_read_bs_u(const uint8_t *s, size_t length, size_t at);

/* BL, signed 32 bits. Also refused: DWG_RESERVED_TAG. */
DwgSignedAnswer dwg_read_bl(const uint8_t *s, size_t length, size_t at);

/* BL, unsigned 32 bits. Also refused: DWG_RESERVED_TAG. */
DwgCodeAnswer dwg_read_bl_u(const uint8_t *s, size_t length, size_t at);

/* BLL: three bits, and that many bytes. */
DwgCodeAnswer dwg_read_bll(const uint8_t *s, size_t length, size_t at);

/* BD: a double. Also refused: DWG_RESERVED_TAG. A NaN's pattern gives a NaN. */
DwgDoubleAnswer dwg_read_bd(const uint8_t *s, size_t length, size_t at);

/* BD, as its 64 bits, bit for bit. Also refused: DWG_RESERVED_TAG. */
DwgCodeAnswer dwg_read_bd_bits(const uint8_t *s, size_t length, size_t at);

/* DD with a default: a double. A default that is a NaN counts as 7ff8000000000000; to
 * patch its own bits, call dwg_read_dd_bits. */
DwgDoubleAnswer dwg_read_dd(const uint8_t *s, size_t length, size_t at, double fallback);

/* DD with a default, both as their 64 bits, bit for bit. */
DwgCodeAnswer dwg_read_dd_bits(const uint8_t *s, size_t length, size_t at, uint64_t fallback);

/* A handle: 4 bits code, 4 bits counter, counter bytes with the high one first. Also refused: DWG_HANDLE_COUNTER. */
DwgHandleAnswer dwg_read_handle(const uint8_t *s, size_t length, size_t at);

#ifdef __cplusplus
}
#endif

#include "dwg_hatch_texts.h" /* for who includes this header alone */

#endif
