/* Mistakes that oracle/starts must find, put before the library by the linker (--wrap), as those of ../host/fuzz/mistakes.c: MISTAKE is which. Those of
 * a hatch are in all three functions alike, so that no claim of ../host/tests/c sees them. */
#include <dwg_hatch.h>

#define READER const uint8_t *main, size_t length, size_t start, const uint8_t *string, size_t string_length, size_t string_start, size_t string_end
#define LISTS(number) number *numbers, size_t numbers_length, uint32_t *words, size_t words_length
DwgLengthsAnswer __real_dwg_hatch_measure_with_strings(READER, uint64_t release);
DwgBodyAnswer __real_dwg_hatch_decode_with_strings(READER, uint64_t release, LISTS(double));
DwgBodyBitsAnswer __real_dwg_hatch_decode_with_strings_bits(READER, uint64_t release, LISTS(uint64_t));
DwgTextAnswer __real_dwg_read_string_tv(const uint8_t *string, size_t length, size_t at, size_t end);
DwgLengthsAnswer __wrap_dwg_hatch_measure_with_strings(READER, uint64_t release);
DwgBodyAnswer __wrap_dwg_hatch_decode_with_strings(READER, uint64_t release, LISTS(double));
DwgBodyBitsAnswer __wrap_dwg_hatch_decode_with_strings_bits(READER, uint64_t release, LISTS(uint64_t));
DwgTextAnswer __wrap_dwg_read_string_tv(const uint8_t *string, size_t length, size_t at, size_t end);

/* 1: a string start at the payload's end is refused, as one past it is. 3: the same of a text by value. */
static bool is_refused(int mistake, size_t start, size_t length) {
    return MISTAKE == mistake && start == 8 * length;
}

/* 2: the second place of a string start that is refused is the start and not the payload's end. */
static size_t second_place(size_t place, size_t start, size_t length) {
    return MISTAKE == 2 && start > 8 * length ? start : place;
}

DwgLengthsAnswer __wrap_dwg_hatch_measure_with_strings(READER, uint64_t release) {
    DwgLengthsAnswer a = {.refusal = DWG_TOO_FEW_BITS, .place = start, .string_place = string_start};
    if (!is_refused(1, string_start, string_length)) {
        a = __real_dwg_hatch_measure_with_strings(main, length, start, string, string_length, string_start, string_end, release);
    }
    a.string_place = second_place(a.string_place, string_start, string_length);
    return a;
}

DwgBodyAnswer __wrap_dwg_hatch_decode_with_strings(READER, uint64_t release, LISTS(double)) {
    DwgBodyAnswer a = {.refusal = DWG_TOO_FEW_BITS, .place = start, .string_place = string_start};
    if (!is_refused(1, string_start, string_length)) {
        a = __real_dwg_hatch_decode_with_strings(main, length, start, string, string_length, string_start, string_end, release, numbers, numbers_length,
                                                 words, words_length);
    }
    a.string_place = second_place(a.string_place, string_start, string_length);
    return a;
}

DwgBodyBitsAnswer __wrap_dwg_hatch_decode_with_strings_bits(READER, uint64_t release, LISTS(uint64_t)) {
    DwgBodyBitsAnswer a = {.refusal = DWG_TOO_FEW_BITS, .place = start, .string_place = string_start};
    if (!is_refused(1, string_start, string_length)) {
        a = __real_dwg_hatch_decode_with_strings_bits(main, length, start, string, string_length, string_start, string_end, release, numbers,
                                                      numbers_length, words, words_length);
    }
    a.string_place = second_place(a.string_place, string_start, string_length);
    return a;
}

DwgTextAnswer __wrap_dwg_read_string_tv(const uint8_t *string, size_t length, size_t at, size_t end) {
    DwgTextAnswer refused = {.refusal = DWG_TOO_FEW_BITS, .place = at};
    return is_refused(3, at, length) ? refused : __real_dwg_read_string_tv(string, length, at, end);
}
