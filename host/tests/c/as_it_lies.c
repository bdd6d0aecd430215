/* A host's array of doubles lent as it lies, bit for bit: a body whose seed points have a signalling NaN, a negative zero and a subnormal, read
 * into arrays of doubles by both entries. Compiled with optimisation, so that a compiler's assumptions about aliasing would show. */
#include "calls.h"

#include <string.h>

#define SEEDS 2
#define SPARE 0x7ff4000000000001u /* what the entries hold before: a signalling NaN */

static const uint64_t laid[2 * SEEDS] = {0xfff0000000000001u, 0x8000000000000000u, 0x000fffffffffffffu, 0x41a6fe5155555555u};

/* Release 2: A9 AA 9 (a solid hatch of no path), the seed count as a BL of one byte, and the doubles, all at four bits past a byte. */
static size_t lay_out(uint8_t *bytes) {
    static const uint8_t head[] = {0xa9, 0xaa, 0x90, SEEDS << 4};
    size_t at = 8 * sizeof head - 4;
    memcpy(bytes, head, sizeof head);
    for (size_t i = 0; i < 8 * 2 * SEEDS; i++, at += 8) {
        uint8_t byte = (uint8_t)(laid[i / 8] >> 8 * (i % 8));
        bytes[at / 8] |= byte >> 4;
        bytes[at / 8 + 1] = (uint8_t)(byte << 4);
    }
    return at;
}

static uint64_t bits_of(double value) {
    uint64_t bits;
    memcpy(&bits, &value, sizeof bits);
    return bits;
}

int main(void) {
    uint8_t payload[4 + 16 * SEEDS] = {0};
    double numbers[2 * SEEDS + 1];
    uint32_t no_words[1];
    uint64_t spare = SPARE;
    size_t end = lay_out(payload);
    for (int bits_entry = 0; bits_entry < 2; bits_entry++) {
        for (size_t i = 0; i <= 2 * SEEDS; i++) {
            memcpy(&numbers[i], &spare, sizeof spare);
        }
        size_t place = bits_entry ? dwg_hatch_decode_bits(payload, sizeof payload, 0, 2, (uint64_t *)numbers, 2 * SEEDS + 1, no_words, 0).place
                                  : dwg_hatch_decode(payload, sizeof payload, 0, 2, numbers, 2 * SEEDS + 1, no_words, 0).place;
        claim(place == end, "the body is read to its end");
        for (size_t i = 0; i < 2 * SEEDS; i++) {
            claim(bits_entry ? bits_of(numbers[i]) == laid[i] : is_double_of(numbers[i], laid[i]), "each double is the one laid out");
        }
        claim(bits_of(numbers[2 * SEEDS]) == SPARE, "the entry past the length used keeps every bit");
    }
    return 0;
}
