/* Mistakes that the fuzzer must find, put before the library by the linker (--wrap): MISTAKE is which. host/fuzz/test runs them all. */
#include <dwg_hatch.h>

DwgLengthsAnswer __real_dwg_hatch_measure(const uint8_t *, size_t, size_t, uint64_t);
DwgBodyAnswer __real_dwg_hatch_decode(const uint8_t *, size_t, size_t, uint64_t, double *, size_t, uint32_t *, size_t);
DwgBodyBitsAnswer __real_dwg_hatch_decode_bits(const uint8_t *, size_t, size_t, uint64_t, uint64_t *, size_t, uint32_t *, size_t);
DwgMoveAnswer __real_dwg_hatch_move_origin(DwgBodyAnswer, const uint32_t *, size_t, double *, size_t, double, double);
DwgMoveAnswer __real_dwg_hatch_move_origin_bits(DwgBodyBitsAnswer, const uint32_t *, size_t, uint64_t *, size_t, uint64_t, uint64_t);
DwgLengthsAnswer __wrap_dwg_hatch_measure(const uint8_t *, size_t, size_t, uint64_t);
DwgBodyAnswer __wrap_dwg_hatch_decode(const uint8_t *, size_t, size_t, uint64_t, double *, size_t, uint32_t *, size_t);
DwgBodyBitsAnswer __wrap_dwg_hatch_decode_bits(const uint8_t *, size_t, size_t, uint64_t, uint64_t *, size_t, uint32_t *, size_t);
DwgMoveAnswer __wrap_dwg_hatch_move_origin(DwgBodyAnswer, const uint32_t *, size_t, double *, size_t, double, double);
DwgMoveAnswer __wrap_dwg_hatch_move_origin_bits(DwgBodyBitsAnswer, const uint32_t *, size_t, uint64_t *, size_t, uint64_t, uint64_t);

/* 1: a count that is refused is refused one bit late, by all three functions alike. */
static size_t late(uint64_t refusal, size_t place) {
    return MISTAKE == 1 && refusal == DWG_COUNT_TOO_LARGE ? place + 1 : place;
}

DwgLengthsAnswer __wrap_dwg_hatch_measure(const uint8_t *main, size_t length, size_t start, uint64_t release) {
    DwgLengthsAnswer a = __real_dwg_hatch_measure(main, length, start, release);
    a.place = late(a.refusal, a.place);
    return a;
}

/* 2: a double of a long list loses its last bit, in both entries alike. */
static bool spoiled(uint64_t refusal, size_t numbers_used) {
    return MISTAKE == 2 && refusal == 0 && numbers_used > 6;
}

/* 6: the style of a hatch that is read is told wrongly where the same hatch was read before, in both entries alike. */
static uint16_t remembered(uint16_t style, uint64_t refusal, size_t place, size_t *before) {
    bool again = MISTAKE == 6 && refusal == 0 && place == *before;
    *before = place;
    return again ? style + 1 : style;
}

/* 10: a padded name is told as one that is not, in both entries alike. */
static bool told(bool padded) {
    return MISTAKE != 10 && padded;
}

DwgBodyAnswer __wrap_dwg_hatch_decode(const uint8_t *main, size_t length, size_t start, uint64_t release, double *numbers, size_t nn,
                                      uint32_t *words, size_t nw) {
    static size_t before;
    DwgBodyAnswer a = __real_dwg_hatch_decode(main, length, start, release, numbers, nn, words, nw);
    a.place = late(a.refusal, a.place);
    a.fields.pattern_style = remembered(a.fields.pattern_style, a.refusal, a.place, &before);
    a.fields.pattern_name.padded = told(a.fields.pattern_name.padded);
    if (spoiled(a.refusal, a.fields.numbers_used)) {
        *(uint64_t *)(void *)&numbers[5] &= ~(uint64_t)1;
    }
    return a;
}

/* 3: a byte behind the payload is read. 4: a list that is too short is written to. 5: an entry past the length used is written to. */
DwgBodyBitsAnswer __wrap_dwg_hatch_decode_bits(const uint8_t *main, size_t length, size_t start, uint64_t release, uint64_t *bits, size_t nn,
                                               uint32_t *words, size_t nw) {
    static size_t before;
    DwgBodyBitsAnswer a = __real_dwg_hatch_decode_bits(main, length, start, release, bits, nn, words, nw);
    a.place = late(a.refusal, a.place);
    a.fields.pattern_style = remembered(a.fields.pattern_style, a.refusal, a.place, &before);
    a.fields.pattern_name.padded = told(a.fields.pattern_name.padded);
    if (spoiled(a.refusal, a.fields.numbers_used)) {
        bits[5] &= ~(uint64_t)1;
    }
    if (MISTAKE == 3 && a.refusal == DWG_TOO_FEW_BITS && ((const volatile uint8_t *)main)[length] == 1) {
        a.place++;
    }
    if (MISTAKE == 4 && a.refusal == DWG_LIST_TOO_SHORT && nw > 0) {
        words[0] = 0;
    }
    if (MISTAKE == 5 && a.refusal == 0 && a.fields.numbers_used < nn) {
        bits[a.fields.numbers_used] = 0;
    }
    return a;
}

/* 7: a hatch that is refused as too far out has its first number altered. 8: a difference of a hatch of many numbers is off by its last bit. 9: an entry past
 * the length used is altered. All in both entries alike. */
static void alter(uint64_t refusal, uint64_t *bits, size_t length, size_t used) {
    if (MISTAKE == 7 && refusal == DWG_COORDINATE_OUT_OF_RANGE && length > 0) {
        bits[0] ^= 1;
    }
    if (MISTAKE == 8 && refusal == 0 && used > 6) {
        bits[used - 1] ^= 1;
    }
    if (MISTAKE == 9 && refusal == 0 && used < length) {
        bits[used] ^= 1;
    }
}

DwgMoveAnswer __wrap_dwg_hatch_move_origin(DwgBodyAnswer hatch, const uint32_t *words, size_t nw, double *numbers, size_t nn, double x, double y) {
    DwgMoveAnswer a = __real_dwg_hatch_move_origin(hatch, words, nw, numbers, nn, x, y);
    alter(a.refusal, (uint64_t *)(void *)numbers, nn, hatch.fields.numbers_used);
    return a;
}

DwgMoveAnswer __wrap_dwg_hatch_move_origin_bits(DwgBodyBitsAnswer hatch, const uint32_t *words, size_t nw, uint64_t *bits, size_t nn, uint64_t x,
                                                uint64_t y) {
    DwgMoveAnswer a = __real_dwg_hatch_move_origin_bits(hatch, words, nw, bits, nn, x, y);
    alter(a.refusal, bits, nn, hatch.fields.numbers_used);
    return a;
}
