/* A hatch moved by both entries, in lists of exactly their lengths, and compared. */
#include "calls.h"

#include <string.h>

/* What both entries must leave: on a refusal every entry as it was, else each past the length used; and the words always. */
static void check_left(const Given *g, const DwgMoveAnswer *a, const uint64_t *bits, const double *doubles, const uint32_t *words) {
    size_t used = a->refusal == 0 ? g->hatch.fields.numbers_used : 0;
    claim(used <= g->num_bits, "a hatch is moved only where its numbers are all lent");
    claim(memcmp(words, g->words, 4 * g->num_words) == 0, "words are only read");
    claim(memcmp(bits + used, g->bits + used, 8 * (g->num_bits - used)) == 0, "what is past the length used, and all that is refused, keeps every bit");
    claim(memcmp(doubles + used, g->bits + used, 8 * (g->num_bits - used)) == 0, "and so in a list of doubles");
}

/* A move does not look at names: whether one is padded may be any byte, neither 0 nor 1 too. */
static void set_any_padded(DwgTextFields *name) {
    ((unsigned char *)name)[offsetof(DwgTextFields, padded)] = 0x5a;
}

void answer_move(const Request *r, Line *line) {
    const Given *g = r->given;
    uint32_t *words = (uint32_t *)lend(SLOT_WORDS, 4 * g->num_words);
    uint64_t *bits = (uint64_t *)lend(SLOT_BITS, 8 * g->num_bits);
    double *doubles = (double *)lend(SLOT_DOUBLES, 8 * g->num_bits);
    double x, y;
    DwgBodyAnswer hatch;
    memcpy(words, g->words, 4 * g->num_words);
    memcpy(bits, g->bits, 8 * g->num_bits);
    memcpy(doubles, g->bits, 8 * g->num_bits);
    memcpy(&x, &g->x, sizeof x);
    memcpy(&y, &g->y, sizeof y);
    memcpy(&hatch, &g->hatch, sizeof hatch); /* the two structs lie alike */
    set_any_padded(&hatch.gradient.name);
    set_any_padded(&hatch.fields.pattern_name);
    DwgMoveAnswer a = dwg_hatch_move_origin_bits(g->hatch, words, g->num_words, bits, g->num_bits, g->x, g->y);
    DwgMoveAnswer b = dwg_hatch_move_origin(hatch, words, g->num_words, doubles, g->num_bits, x, y);
    claim(a.refusal == b.refusal, "both entries of a move refuse alike");
    claim(a.place == 0 && a.string_place == 0 && b.place == 0 && b.string_place == 0, "a move has no places");
    claim(memcmp(bits, doubles, 8 * g->num_bits) == 0, "both entries of a move leave the same doubles");
    check_left(g, &a, bits, doubles, words);
    check_seeds(&g->hatch.fields, g->num_bits); /* whatever the fields are */
    if (a.refusal != 0) {
        put_refusal(line, a.refusal, a.place, a.string_place);
    } else {
        put(line, "ok 0 0 nums=%s", g->num_bits == 0 ? "-" : "");
        for (size_t i = 0; i < g->num_bits; i++) {
            put(line, i == 0 ? "" : ",");
            put_bits(line, bits[i]);
        }
    }
    take_back(SLOT_WORDS, words);
    take_back(SLOT_BITS, bits);
    take_back(SLOT_DOUBLES, doubles);
}
