/* Hatches to be moved, made of an input's bytes: what the main payload reads as a hatch body, or nothing where it is refused, altered by edits. */
#include "input.h"

#include <string.h>

#define MOST 32768u /* entries of a list: more than a body of an input's length has */

static uint32_t words[MOST];
static uint64_t bits[MOST];

/* The body of the main payload, texts inline. */
static void read_body(const Request *r, Given *g) {
    memset(g, 0, sizeof *g);
    g->words = words;
    g->bits = bits;
    g->hatch = dwg_hatch_decode_bits(r->main.bytes, r->main.length, r->start, r->release, bits, MOST, words, MOST);
    g->hatch.refusal = 0;
    g->num_words = g->hatch.fields.words_used;
    g->num_bits = g->hatch.fields.numbers_used;
}

/* What an edit alters in the record. */
static void alter_record(Given *g, uint8_t what, uint64_t value) {
    DwgBodyFields *f = &g->hatch.fields;
    switch (what) {
    case EDIT_PATHS: f->num_paths = value; break;
    case EDIT_LINES: f->num_pattern_lines = value; break;
    case EDIT_SEEDS: f->num_seed_points = value; break;
    case EDIT_COLORS: g->hatch.gradient.num_colors = value; break;
    case EDIT_SOLID: SWITCH(g, solid_fill) = (unsigned char)value; break;
    case EDIT_ASSOCIATIVE: SWITCH(g, associative) = (unsigned char)value; break;
    case EDIT_DOUBLE: SWITCH(g, pattern_double) = (unsigned char)value; break;
    case EDIT_EXTRUSION_X: g->hatch.extrusion_x = value; break;
    case EDIT_EXTRUSION_Y: g->hatch.extrusion_y = value; break;
    case EDIT_EXTRUSION_Z: g->hatch.extrusion_z = value; break;
    case EDIT_X: g->x = value; break;
    case EDIT_Y: g->y = value; break;
    default: break;
    }
}

/* What an edit alters in the lists; `at` is the entry that is altered next. */
static void alter_lists(Given *g, uint8_t what, uint64_t value, size_t *at) {
    switch (what) {
    case EDIT_ADD_WORD:
        if (g->num_words < MOST) {
            words[g->num_words++] = (uint32_t)value;
        }
        break;
    case EDIT_ADD_NUMBER:
        if (g->num_bits < MOST) {
            bits[g->num_bits++] = value;
        }
        break;
    case EDIT_DROP_WORD: g->num_words -= g->num_words > 0; break;
    case EDIT_DROP_NUMBER: g->num_bits -= g->num_bits > 0; break;
    case EDIT_AT: *at = (size_t)value; break;
    case EDIT_WORD:
        if (g->num_words > 0) {
            words[*at % g->num_words] = (uint32_t)value;
        }
        break;
    case EDIT_NUMBER:
        if (g->num_bits > 0) {
            bits[*at % g->num_bits] = value;
        }
        break;
    case EDIT_ALL_NUMBERS:
        for (size_t i = 0; i < g->num_bits; i++) {
            bits[i] = value + i;
        }
        break;
    default: break;
    }
}

void given_of(const Request *r, Given *g) {
    bool words_set = false, numbers_set = false;
    size_t at = 0, words_used = 0, numbers_used = 0;
    read_body(r, g);
    for (size_t i = 0; i + EDIT <= r->string.length; i += EDIT) {
        uint8_t what = r->string.bytes[i] % EDITS;
        uint64_t value;
        memcpy(&value, r->string.bytes + i + 1, 8);
        if (what == EDIT_WORDS_USED) {
            words_set = true;
            words_used = value;
        } else if (what == EDIT_NUMBERS_USED) {
            numbers_set = true;
            numbers_used = value;
        }
        alter_record(g, what, value);
        alter_lists(g, what, value, &at);
    }
    g->hatch.fields.words_used = words_set ? words_used : g->num_words;
    g->hatch.fields.numbers_used = numbers_set ? numbers_used : g->num_bits;
}

/* The request as the protocol has it, for the model. */
void put_move(Line *line, const Given *g) {
    const DwgBodyFields *f = &g->hatch.fields;
    put(line, "move ");
    put_bits(line, g->x);
    put(line, " ");
    put_bits(line, g->y);
    put(line, " ext=");
    put_bits(line, g->hatch.extrusion_x);
    put(line, ",");
    put_bits(line, g->hatch.extrusion_y);
    put(line, ",");
    put_bits(line, g->hatch.extrusion_z);
    put(line, " solid=%u assoc=%u pdouble=%u", SWITCH(g, solid_fill), SWITCH(g, associative), SWITCH(g, pattern_double));
    put(line, " gn=%zu npaths=%zu nlines=%zu", g->hatch.gradient.num_colors, f->num_paths, f->num_pattern_lines);
    put(line, " nseeds=%zu nw=%zu nn=%zu words=", f->num_seed_points, f->words_used, f->numbers_used);
    put(line, g->num_words == 0 ? "-" : "");
    for (size_t i = 0; i < g->num_words; i++) {
        put(line, i == 0 ? "" : ",");
        put_number(line, g->words[i]);
    }
    put(line, " nums=%s", g->num_bits == 0 ? "-" : "");
    for (size_t i = 0; i < g->num_bits; i++) {
        put(line, i == 0 ? "" : ",");
        put_bits(line, g->bits[i]);
    }
}

/* Turns every entry past the lengths used over; gives how many numbers are used, or are there. */
size_t turn_over_lists(Given *g) {
    size_t used = g->hatch.fields.numbers_used < g->num_bits ? g->hatch.fields.numbers_used : g->num_bits;
    for (size_t i = g->hatch.fields.words_used; i < g->num_words; i++) {
        g->words[i] = ~g->words[i];
    }
    for (size_t i = used; i < g->num_bits; i++) {
        g->bits[i] = ~g->bits[i];
    }
    return used;
}
