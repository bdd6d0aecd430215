/* Writes an input of the fuzzer for each request line on standard input: files 0, 1, .. of the folder that is named, and of a hatch one more that
 * moves it. A payload above 4,096 bytes is left out; a start that two bytes do not hold becomes the largest number. */
#include "input.h"

#include <stdio.h>
#include <stdlib.h>
#include <string.h>

static void put_two(uint8_t *at, size_t value) {
    value = value > 0xffff ? 0xffff : value;
    at[0] = (uint8_t)value;
    at[1] = (uint8_t)(value >> 8);
}

static size_t put_edit(uint8_t *edits, size_t at, uint8_t what, uint64_t value) {
    edits[at] = what;
    memcpy(edits + at + 1, &value, 8);
    return at + EDIT;
}

/* A move as edits of nothing: every entry of its lists and every number of its record that is looked at. */
static size_t put_edits(uint8_t *edits, const Given *g) {
    const DwgBodyFields *f = &g->hatch.fields;
    const uint64_t values[] = {f->num_paths, f->num_pattern_lines, f->num_seed_points, f->words_used, f->numbers_used, g->hatch.gradient.num_colors,
                               SWITCH(g, solid_fill), SWITCH(g, associative), SWITCH(g, pattern_double), g->hatch.extrusion_x, g->hatch.extrusion_y,
                               g->hatch.extrusion_z, g->x, g->y};
    size_t at = 0;
    for (size_t i = 0; i < sizeof values / sizeof *values; i++) {
        at = put_edit(edits, at, (uint8_t)(EDIT_PATHS + i), values[i]);
    }
    for (size_t i = 0; i < g->num_words; i++) {
        at = put_edit(edits, at, EDIT_ADD_WORD, g->words[i]);
    }
    for (size_t i = 0; i < g->num_bits; i++) {
        at = put_edit(edits, at, EDIT_ADD_NUMBER, g->bits[i]);
    }
    return at;
}

/* Whether a move's edits fit an input. */
static bool is_short(const Given *g) {
    return EDIT * (14 + g->num_words + g->num_bits) <= 4000;
}

/* What a hatch body's reading is edited to, so that it can be moved: numbers near 4,650,000, and the extrusion (0, 0, 1). */
static size_t put_plain_edits(uint8_t *edits) {
    size_t at = put_edit(edits, 0, EDIT_ALL_NUMBERS, 0x4151bd0400000000u);
    at = put_edit(edits, at, EDIT_X, 0x4151bd0400000001u);
    at = put_edit(edits, at, EDIT_EXTRUSION_X, 0);
    at = put_edit(edits, at, EDIT_EXTRUSION_Y, 0);
    return put_edit(edits, at, EDIT_EXTRUSION_Z, 0x3ff0000000000000u);
}

/* AT_SHORT of a conversion: how many entries more than needed the output has. */
static uint8_t more_room(const Request *r) {
    size_t length = r->kind == KIND_UNCP1252 ? r->main.length / 2 : r->main.length;
    if (!r->lent || r->room >= length) {
        size_t more = r->lent ? r->room - length : 0;
        return (uint8_t)(more > 0x7f ? 0x7f : more);
    }
    return r->room == 0 || length - r->room > 0x7f ? 0x80 : (uint8_t)(0x100u - (length - r->room));
}

static void write_input(const Request *r, const char *folder, unsigned index, const char *suffix) {
    uint8_t head[HEAD] = {0};
    char name[4096];
    head[AT_KIND] = (uint8_t)r->kind;
    head[AT_RELEASE] = (uint8_t)(r->release > 8 ? 8 : r->release);
    head[AT_PLACEMENT] = (uint8_t)((index & 3) | (r->lent ? 4 : 0));
    put_two(head + AT_START, r->start);
    put_two(head + AT_STRING_START, r->string_start);
    put_two(head + AT_STRING_END, r->string_end);
    head[AT_SHORT] = r->kind > KIND_MOVE ? more_room(r) : (uint8_t)(index / 4 % 16);
    memcpy(head + AT_FALLBACK, &r->fallback, 8);
    uint8_t edits[4096];
    size_t edited = r->kind != KIND_MOVE ? 0 : r->given == NULL ? put_plain_edits(edits) : put_edits(edits, r->given);
    put_two(head + AT_STRING_BYTES, r->kind == KIND_MOVE ? edited : r->string.length);
    int made = snprintf(name, sizeof name, "%s/%u%s", folder, index, suffix);
    FILE *file = made > 0 && (size_t)made < sizeof name ? fopen(name, "wb") : NULL;
    claim(file != NULL, "the folder of the seeds can be written to");
    fwrite(head, 1, HEAD, file);
    fwrite(r->main.bytes, 1, r->main.length, file);
    fwrite(r->string.bytes, 1, r->string.length, file);
    fwrite(edits, 1, edited, file);
    claim(fclose(file) == 0, "a seed can be written");
}

int main(int count, char **words) {
    char *text = NULL;
    size_t room = 0;
    if (count != 2) {
        fprintf(stderr, "usage: seeds FOLDER < REQUESTS\n");
        return 2;
    }
    for (unsigned index = 0; getline(&text, &room, stdin) > 0; index++) {
        Request request = {.kind = KINDS};
        bool good = parse(text, &request) && request.main.length <= 4096 && request.string.length <= 4096;
        if (good && (request.kind != KIND_MOVE || is_short(request.given))) {
            write_input(&request, words[1], index, "");
        }
        if (good && request.kind == KIND_HATCH && request.main.length <= 4000) {
            request.kind = KIND_MOVE; /* the body's reading moved */
            write_input(&request, words[1], index, "-moved");
        }
        take_back(SLOT_MAIN, (void *)request.main.bytes);
        take_back(SLOT_STRING, (void *)request.string.bytes);
    }
    free(text);
    return 0;
}
