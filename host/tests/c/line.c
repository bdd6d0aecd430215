/* Answer lines, as the protocol writes them. */
#include "calls.h"

#include <stdarg.h>
#include <stdio.h>
#include <stdlib.h>
#include <string.h>

void claim(bool holds, const char *text) {
    if (holds) {
        return;
    }
    fprintf(stderr, "calls: it does not hold that %s\n", text);
    abort();
}

static void make_room(Line *line, size_t more) {
    if (line->length + more < line->room) {
        return;
    }
    line->room = 2 * line->room + more + 256;
    line->text = (char *)realloc(line->text, line->room);
    claim(line->text != NULL, "there is memory for an answer line");
}

void put(Line *line, const char *format, ...) {
    va_list arguments;
    make_room(line, 256); /* no format here makes more */
    va_start(arguments, format);
    int made = vsnprintf(line->text + line->length, 256, format, arguments);
    va_end(arguments);
    claim(made >= 0 && made < 256, "a part of an answer line is short");
    line->length += (size_t)made;
}

void put_bits(Line *line, uint64_t bits) {
    make_room(line, 17);
    for (int shift = 60; shift >= 0; shift -= 4) {
        line->text[line->length++] = "0123456789abcdef"[bits >> shift & 15];
    }
    line->text[line->length] = 0;
}

void put_number(Line *line, uint64_t number) {
    char digits[21];
    char *first = digits + 20;
    *first = 0;
    do {
        *--first = (char)('0' + number % 10);
        number /= 10;
    } while (number != 0);
    size_t length = (size_t)(digits + 20 - first);
    make_room(line, length + 1);
    memcpy(line->text + line->length, first, length + 1);
    line->length += length;
}

void put_unit(Line *line, unsigned unit, unsigned bits) {
    put(line, bits == 16 ? "%04x" : "%02x", unit);
}

void put_refusal(Line *line, uint64_t number, size_t place, size_t second_place) {
    put(line, "err %llu %zu %zu", (unsigned long long)number, place, second_place);
}

bool is_double_of(double value, uint64_t bits) {
    uint64_t got;
    memcpy(&got, &value, sizeof got);
    if ((bits & 0x7fffffffffffffffu) > 0x7ff0000000000000u) {
        return value != value;
    }
    return got == bits;
}

/* Eight bits from a bit position on; the headers say that a text's units lie inside its payload. */
static unsigned byte_at(Payload payload, size_t bit) {
    claim(bit / 8 < payload.length && (bit + 7) / 8 < payload.length, "a text lies inside its payload");
    unsigned two = (unsigned)payload.bytes[bit / 8] << 8;
    two |= bit % 8 == 0 ? 0u : payload.bytes[bit / 8 + 1];
    return two >> (8 - bit % 8) & 255;
}

/* A unit of a text, by its place among them; the one that was dropped stands behind the last that is counted. */
static unsigned unit_at(Payload payload, const DwgTextFields *text, size_t unit) {
    size_t at = text->position + unit * text->width;
    return text->width == 16 ? byte_at(payload, at + 8) << 8 | byte_at(payload, at) : byte_at(payload, at);
}

/* A padded text has a zero unit behind those that are counted; one that is not padded does not end with a zero. */
static void check_padded(const DwgTextFields *text, Payload payload) {
    claim(!text->padded || text->source != DWG_SOURCE_NONE, "what lies in no payload is not padded");
    claim(!text->padded || unit_at(payload, text, text->count) == 0, "the unit that was dropped is zero");
    claim(text->padded || text->count == 0 || unit_at(payload, text, text->count - 1) != 0, "a closing zero unit is dropped");
}

void put_text(Line *line, const DwgTextFields *text, const Request *request) {
    static const char sources[] = "-ms";
    claim(text->source <= 2, "a text's source is 0, 1 or 2");
    claim(text->width == (text->source == DWG_SOURCE_NONE ? 0 : text->width == 8 ? 8 : 16), "a unit has 8 or 16 bits, or there is no text");
    put(line, "%c:%u:%zu:%zu:", sources[text->source], text->width, text->position, text->count);
    if (text->count == 0) {
        put(line, "-");
    }
    Payload payload = text->source == DWG_SOURCE_STRING && request->kind != KIND_STRING_TV ? request->string : request->main;
    check_padded(text, payload);
    for (size_t unit = 0; unit < text->count; unit++) {
        put_unit(line, unit_at(payload, text, unit), text->width);
    }
    put(line, ":%d", text->padded);
}
