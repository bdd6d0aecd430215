/* Payloads at document 01's limit and one byte above it, for every exported function that takes one: a code that ends at the last bit of a payload of exactly
 * the limit is read as at the end of a short payload, and one byte more is refusal 10. Behind each payload lies a page that may not be
 * touched, and a payload above the limit may not be touched at all. Then one body that fills a payload of the limit to its last bit. */
#include "calls.h"

#include <stdio.h>
#include <stdlib.h>
#include <string.h>
#include <sys/mman.h>

#define LIMIT ((size_t)DWG_PAYLOAD_LIMIT)
#define PAGE 4096u

/* A payload by its last bits: the bytes, and how many bits of them count, from the first on. */
typedef struct Case {
    Kind kind;
    uint64_t release;
    const char *hex;
    size_t bits;
    const char *string_hex; /* the string payload, of KIND_HATCHS */
    size_t string_bits;
} Case;

static const Case cases[] = {
    {KIND_B, 1, "80", 1, "", 0},
    {KIND_BB, 1, "C0", 2, "", 0},
    {KIND_3B, 1, "E0", 3, "", 0},
    {KIND_BS, 1, "3FFFC0", 18, "", 0},
    {KIND_BSU, 1, "3FFFC0", 18, "", 0},
    {KIND_BL, 1, "3FFFFFFFC0", 34, "", 0},
    {KIND_BLU, 1, "3FFFFFFFC0", 34, "", 0},
    {KIND_BD, 1, "0000000000003C0FC0", 66, "", 0},
    {KIND_BLL, 1, "3180", 11, "", 0},
    {KIND_RC, 1, "A5", 8, "", 0},
    {KIND_RS, 1, "FEFF", 16, "", 0},
    {KIND_RL, 1, "FEFFFFFF", 32, "", 0},
    {KIND_RD, 1, "5555555555555540", 64, "", 0},
    {KIND_HANDLE, 1, "510F", 16, "", 0},
    {KIND_DD, 1, "4155555540", 34, "", 0},
    {KIND_TV, 2, "40905080", 26, "", 0},
    {KIND_TV, 4, "40504000", 26, "", 0},
    {KIND_STRING_TV, 1, "40504000", 26, "", 0},
    {KIND_TV, 2, "404000", 18, "", 0}, /* a zero unit alone, which is dropped */
    {KIND_TV, 2, "40904000", 26, "", 0},
    {KIND_TV, 4, "40400000", 26, "", 0},
    {KIND_STRING_TV, 1, "40400000", 26, "", 0},
    {KIND_PREFIX, 2, "85D08740", 26, "", 0},
    {KIND_HATCH, 2, "A9AAA0", 20, "", 0},
    {KIND_HATCH, 2, "A9AA901555555555555554055555555555555C00", 156, "", 0},
    {KIND_HATCH, 3, "A9AAA0", 22, "", 0},
    {KIND_HATCHS, 2, "A9AAA0", 20, "40504000", 26},
    {KIND_HATCHS, 2, "A9AAA0", 20, "409040000000", 42}, /* a padded name */
    {KIND_HATCHS, 2, "A9", 8, "4040", 16},
};

/* Room for a payload of the limit, zeros, that ends at a page that may not be touched: its last byte is end[-1]. */
static uint8_t *room_end(void) {
    size_t room = LIMIT;
    uint8_t *memory = (uint8_t *)mmap(NULL, room + PAGE, PROT_READ | PROT_WRITE, MAP_PRIVATE | MAP_ANONYMOUS | MAP_NORESERVE, -1, 0);
    claim(memory != MAP_FAILED && mprotect(memory + room, PAGE, PROT_NONE) == 0, "there is room for a payload at the limit");
    return memory + room;
}

/* One byte more than the limit, none of which may be touched. */
static Payload above_limit(void) {
    void *memory = mmap(NULL, LIMIT + PAGE, PROT_NONE, MAP_PRIVATE | MAP_ANONYMOUS | MAP_NORESERVE, -1, 0);
    claim(memory != MAP_FAILED, "there is room for a payload above the limit");
    return (Payload){(const uint8_t *)memory, LIMIT + 1};
}

static size_t hex_bytes(const char *hex, uint8_t *bytes) {
    size_t length = strlen(hex) / 2;
    for (size_t i = 0; i < length; i++) {
        char two[] = {hex[2 * i], hex[2 * i + 1], 0};
        bytes[i] = (uint8_t)strtoul(two, NULL, 16);
    }
    return length;
}

/* Writes bits, from the top bit of `bits` on, so that they end where a payload ends. */
static void put_last_bits(uint8_t *end, const uint8_t *bits, size_t count) {
    memset(end - 32, 0, 32);
    for (size_t i = 0; i < count; i++) {
        size_t from_end = count - 1 - i;
        end[-1 - (ptrdiff_t)(from_end / 8)] |= (uint8_t)((bits[i / 8] >> (7 - i % 8) & 1) << from_end % 8);
    }
}

static Request request_of(const Case *c, Payload main, Payload string) {
    Request r;
    memset(&r, 0, sizeof r);
    r.kind = c->kind;
    r.release = c->release;
    r.main = main;
    r.start = 8 * main.length - c->bits;
    r.string = string;
    r.string_start = 8 * string.length - c->string_bits;
    r.string_end = 8 * (c->kind == KIND_STRING_TV ? main.length : string.length);
    r.fallback = 0x3ff0000000000000u;
    return r;
}

/* Whether the second line is the first with places moved: each number is the same, or a place in a payload that became longer. */
static bool same_but_moved(const char *small, const char *large, size_t moved, size_t string_moved) {
    while (*small != 0 && *large != 0) {
        bool number = *small >= '0' && *small <= '9' && *large >= '0' && *large <= '9';
        char *small_end, *large_end;
        unsigned long long x = strtoull(small, &small_end, 10), y = strtoull(large, &large_end, 10);
        if (number ? y != x && y != x + moved && y != x + string_moved : *small != *large) {
            return false;
        }
        small = number ? small_end : small + 1;
        large = number ? large_end : large + 1;
    }
    return *small == *large;
}

/* The first place of an answer line, of a reading or a refusal. */
static size_t place_of(const char *line) {
    const char *at = line[0] == 'o' ? line + 3 : strchr(line + 4, ' ') + 1;
    return (size_t)strtoull(at, NULL, 10);
}

/* At the limit and above it: in the main payload; with a reader also in the string payload, and in both. */
static void check_case(const Case *c, uint8_t *main_end, uint8_t *string_end, Payload above_it) {
    static Line small, large, above;
    uint8_t bits[32] = {0}, string_bits[32] = {0};
    size_t length = hex_bytes(c->hex, bits), string_length = hex_bytes(c->string_hex, string_bits);
    char wanted[80];
    claim(c->bits <= 8 * length && c->string_bits <= 8 * string_length, "a case has as many bits as it says");
    put_last_bits(main_end, bits, c->bits);
    put_last_bits(string_end, string_bits, c->string_bits);
    Payload shorts[2] = {{main_end - length, length}, {string_end - string_length, string_length}};
    Payload longs[2] = {{main_end - LIMIT, LIMIT}, {string_end - LIMIT, LIMIT}};
    Request request = request_of(c, shorts[0], shorts[1]);
    answer(&request, &small);

    for (int which = 1; which <= (c->kind == KIND_HATCHS ? 3 : 1); which++) { /* bit 0: the main payload is long, bit 1: the string payload */
        request = request_of(c, (which & 1 ? longs : shorts)[0], (which & 2 ? longs : shorts)[1]);
        answer(&request, &large);
        size_t moved = which & 1 ? 8 * (LIMIT - length) : 0, string_moved = which & 2 ? 8 * (LIMIT - string_length) : 0;
        claim(same_but_moved(small.text, large.text, moved, string_moved), "a payload at the limit is read as a short one");
        claim(place_of(large.text) == place_of(small.text) + moved, "its place is where it lies");

        request = request_of(c, which & 1 ? above_it : shorts[0], which & 2 ? above_it : shorts[1]);
        answer(&request, &above);
        snprintf(wanted, sizeof wanted, "err 10 %zu %zu", request.start, c->kind == KIND_HATCHS ? request.string_start : 0);
        claim(strcmp(above.text, wanted) == 0, "a payload above the limit is refusal 10 at the start bits");
    }
}

static size_t put_field(uint8_t *bytes, size_t at, uint64_t bits, size_t count) {
    for (size_t i = 0; i < count; i++) {
        bytes[(at + i) / 8] |= (uint8_t)((bits >> (count - 1 - i) & 1) << (7 - (at + i) % 8));
    }
    return at + count;
}

/* A BL in all its bytes. */
static size_t put_bl(uint8_t *bytes, size_t at, uint32_t value) {
    at = put_field(bytes, at, 0, 2);
    for (int i = 0; i < 4; i++) {
        at = put_field(bytes, at, value >> 8 * i & 255, 8);
    }
    return at;
}

/* Release 2: paths of 100,000 vertices, and a last one of so many as there is room for, from `start` to the last bit. Vertices are zeros but
 * the last two numbers. Gives back the number of vertices. */
static size_t put_largest(uint8_t *bytes, size_t *start) {
    size_t left = 8 * LIMIT - 52, path = 10 + 2 + 34 + 2, whole = path + 128 * 100000, paths = left / whole + 1;
    size_t last = (left % whole - path) / 128, at = left % whole - path - 128 * last, vertices = 0;
    *start = at;
    at = put_bl(bytes, put_field(bytes, at, 0xa9a, 12), (uint32_t)paths); /* elevation 0, extrusion 0, 0, 1, no name, solid, not associative */
    for (size_t i = 0; i < paths; i++) {
        uint32_t count = i + 1 < paths ? 100000 : (uint32_t)last;
        at = put_field(bytes, at, 0x102, 10); /* flags 2 */
        at = put_bl(bytes, put_field(bytes, at, 1, 2), count);
        at += 128 * (size_t)count;
        at = put_field(bytes, at, 2, 2); /* no handles */
        vertices += count;
    }
    put_field(bytes, at - 2 - 128, 0x0123456789abcdef, 64);
    put_field(bytes, at - 2 - 64, 0xfedcba9876543210, 64);
    at = put_field(bytes, at, 0x2a, 6); /* style 0, type 0, no seeds */
    claim(at == 8 * LIMIT, "the largest body ends at the last bit");
    return vertices;
}

static void check_largest(uint8_t *end) {
    size_t start;
    uint8_t *bytes = end - LIMIT;
    memset(end - 32, 0, 32);
    size_t vertices = put_largest(bytes, &start);
    DwgLengthsAnswer needed = dwg_hatch_measure(bytes, LIMIT, start, 2);
    claim(needed.refusal == 0 && needed.place == 8 * LIMIT && needed.numbers == 2 * vertices, "the largest body is measured");
    uint64_t *bits = (uint64_t *)lend(SLOT_BITS, 8 * needed.numbers);
    uint32_t *words = (uint32_t *)lend(SLOT_WORDS, 4 * needed.words);
    DwgBodyBitsAnswer a = dwg_hatch_decode_bits(bytes, LIMIT, start, 2, bits, needed.numbers, words, needed.words);
    claim(a.refusal == 0 && a.place == 8 * LIMIT && a.fields.numbers_used == 2 * vertices, "the largest body is read");
    claim(bits[2 * vertices - 2] == 0xefcdab8967452301 && bits[2 * vertices - 1] == 0x1032547698badcfe, "its last vertex is the one laid out");
    claim(bits[0] == 0 && bits[vertices] == 0 && words[needed.words - 1] == 0, "its other vertices are zeros, and it ends with no handles");
    printf("limits: a body of %zu paths and %zu vertices fills a payload of %zu bytes and is read\n", a.fields.num_paths, vertices, LIMIT);
    take_back(SLOT_BITS, bits);
    take_back(SLOT_WORDS, words);
}

int main(void) {
    uint8_t *main_end = room_end(), *string_end = room_end();
    Payload above_it = above_limit();
    size_t count = sizeof cases / sizeof *cases;
    for (size_t i = 0; i < count; i++) {
        check_case(&cases[i], main_end, string_end, above_it);
    }
    printf("limits: %zu layouts that end at the last bit of %zu bytes are answered as in short payloads, and one byte more is refused\n",
           count, LIMIT);
    check_largest(main_end);
    return 0;
}
