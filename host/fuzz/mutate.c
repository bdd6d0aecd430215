/* Changes of inputs by bits, since the fields of a body lie back to back at any bit: bits are taken out, put in or turned over behind the
 * head. Every other change is libFuzzer's own, by bytes. */
#include "input.h"

#include <string.h>

size_t LLVMFuzzerMutate(uint8_t *data, size_t size, size_t max_size);
size_t LLVMFuzzerCustomMutator(uint8_t *data, size_t size, size_t max_size, unsigned seed);

static unsigned draw(unsigned *state, unsigned below) {
    *state = *state * 1664525u + 1013904223u;
    return (*state >> 8) % below;
}

static unsigned bit_at(const uint8_t *data, size_t bit) {
    return data[bit / 8] >> (7 - bit % 8) & 1;
}

static void set_bit(uint8_t *data, size_t bit, unsigned value) {
    uint8_t mask = (uint8_t)(1u << (7 - bit % 8));
    data[bit / 8] = (uint8_t)(value ? data[bit / 8] | mask : data[bit / 8] & ~mask);
}

/* Takes `count` bits out at `at`; the last bytes are given up or filled with zeros. */
static size_t take_out(uint8_t *data, size_t size, size_t at, size_t count) {
    size_t bits = 8 * size;
    count = count < bits - at ? count : bits - at;
    for (size_t bit = at; bit < bits; bit++) {
        set_bit(data, bit, bit + count < bits ? bit_at(data, bit + count) : 0);
    }
    return size - count / 8;
}

/* Puts `count` drawn bits in at `at`. */
static size_t put_in(uint8_t *data, size_t size, size_t max_size, size_t at, size_t count, unsigned *state) {
    size_t grown = size + (count + 7) / 8;
    if (grown > max_size) {
        return size;
    }
    memset(data + size, 0, grown - size);
    for (size_t bit = 8 * grown; bit-- > at + count;) {
        set_bit(data, bit, bit_at(data, bit - count));
    }
    for (size_t bit = at; bit < at + count; bit++) {
        set_bit(data, bit, draw(state, 2));
    }
    return grown;
}

size_t LLVMFuzzerCustomMutator(uint8_t *data, size_t size, size_t max_size, unsigned seed) {
    static const uint8_t counts[] = {1, 2, 8, 10, 18, 32, 34, 64, 66, 128}; /* the widths of fields, and of tags */
    unsigned state = seed;
    if (size <= HEAD || draw(&state, 3) != 0) {
        return LLVMFuzzerMutate(data, size, max_size);
    }
    size_t at = 8 * HEAD + draw(&state, (unsigned)(8 * (size - HEAD)));
    size_t count = counts[draw(&state, sizeof counts)];
    switch (draw(&state, 3)) {
    case 0: return take_out(data, size, at, count);
    case 1: return put_in(data, size, max_size, at, count, &state);
    default: set_bit(data, at, !bit_at(data, at)); return size;
    }
}
