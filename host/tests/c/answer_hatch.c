/* Hatch bodies: measured, read by both entries into lists with marks in them, and compared. */
#include "calls.h"

#include <string.h>

/* What the lists hold before a call. As a double it is a NaN that no f64 entry gives, so that an entry which is copied shows too. */
#define MARK 0x7ff4dead5a5a5a5au
#define WORD_MARK 0x5a5a5a5au

/* The lists that are lent to both entries. */
typedef struct Lent {
    uint64_t *bits;
    double *doubles;
    uint32_t *words;
    uint32_t *more_words;
    size_t num_numbers;
    size_t num_words;
} Lent;

static DwgLengthsAnswer measured(const Request *r) {
    const uint8_t *s = r->main.bytes;
    if (r->kind == KIND_HATCH) {
        return dwg_hatch_measure(s, r->main.length, r->start, r->release);
    }
    return dwg_hatch_measure_with_strings(s, r->main.length, r->start, r->string.bytes, r->string.length, r->string_start, r->string_end,
                                          r->release);
}

static DwgBodyBitsAnswer read_bits(const Request *r, Lent *lent) {
    const uint8_t *s = r->main.bytes;
    if (r->kind == KIND_HATCH) {
        return dwg_hatch_decode_bits(s, r->main.length, r->start, r->release, lent->bits, lent->num_numbers, lent->words, lent->num_words);
    }
    return dwg_hatch_decode_with_strings_bits(s, r->main.length, r->start, r->string.bytes, r->string.length, r->string_start, r->string_end,
                                              r->release, lent->bits, lent->num_numbers, lent->words, lent->num_words);
}

static DwgBodyAnswer read_doubles(const Request *r, Lent *lent) {
    const uint8_t *s = r->main.bytes;
    if (r->kind == KIND_HATCH) {
        return dwg_hatch_decode(s, r->main.length, r->start, r->release, lent->doubles, lent->num_numbers, lent->more_words, lent->num_words);
    }
    return dwg_hatch_decode_with_strings(s, r->main.length, r->start, r->string.bytes, r->string.length, r->string_start, r->string_end,
                                         r->release, lent->doubles, lent->num_numbers, lent->more_words, lent->num_words);
}

/* As long as the request says, but no longer than the body needs and one more, since it may name any length. */
static size_t lent_length(bool given, size_t length, size_t needed) {
    return given && length < needed + 1 ? length : needed + 1;
}

static void lend_lists(const Request *r, const DwgLengthsAnswer *needed, Lent *lent) {
    lent->num_numbers = lent_length(r->lent, r->numbers, needed->numbers);
    lent->num_words = lent_length(r->lent, r->words, needed->words);
    lent->bits = (uint64_t *)lend(SLOT_BITS, 8 * lent->num_numbers);
    lent->doubles = (double *)lend(SLOT_DOUBLES, 8 * lent->num_numbers);
    lent->words = (uint32_t *)lend(SLOT_WORDS, 4 * lent->num_words);
    lent->more_words = (uint32_t *)lend(SLOT_MORE_WORDS, 4 * lent->num_words);
    for (size_t i = 0; i < lent->num_numbers; i++) {
        lent->bits[i] = MARK;
        memcpy(&lent->doubles[i], &lent->bits[i], 8);
    }
    for (size_t i = 0; i < lent->num_words; i++) {
        lent->words[i] = lent->more_words[i] = WORD_MARK;
    }
}

static void take_lists_back(Lent *lent) {
    take_back(SLOT_BITS, lent->bits);
    take_back(SLOT_DOUBLES, lent->doubles);
    take_back(SLOT_WORDS, lent->words);
    take_back(SLOT_MORE_WORDS, lent->more_words);
}

/* The two entries filled the same numbers, and no entry past those. */
static void check_numbers(const Lent *lent, size_t used) {
    claim(used <= lent->num_numbers, "the numbers used are no more than were lent");
    for (size_t i = 0; i < lent->num_numbers; i++) {
        uint64_t left;
        memcpy(&left, &lent->doubles[i], 8);
        if (i < used) {
            claim(is_double_of(lent->doubles[i], lent->bits[i]), "both entries list the same doubles");
            claim(left != MARK || lent->bits[i] == MARK, "every double up to the length used is written");
        } else {
            claim(lent->bits[i] == MARK && left == MARK, "a double past the length used keeps every bit");
        }
    }
}

static void check_words(const Lent *lent, size_t used) {
    claim(used <= lent->num_words, "the words used are no more than were lent");
    for (size_t i = 0; i < lent->num_words; i++) {
        claim(lent->words[i] == lent->more_words[i], "both entries list the same words");
        claim(i < used || lent->words[i] == WORD_MARK, "a word past the length used keeps every bit");
    }
}

/* The seed points are the last numbers used, two for each; none where the list or the numbers used are too few. */
void check_seeds(const DwgBodyFields *fields, size_t length) {
    size_t used = fields->numbers_used, seeds = fields->num_seed_points;
    DwgSeedPart part = dwg_hatch_seed_points(used, seeds, length);
    bool there = used <= length && seeds <= SIZE_MAX / 2 && 2 * seeds <= used;
    claim(part.count == (there ? 2 * seeds : 0) && part.begin == (there ? used - part.count : 0), "the seed points are the last numbers used, or none");
}

static bool same_text(const DwgTextFields *a, const DwgTextFields *b) {
    return a->source == b->source && a->width == b->width && a->padded == b->padded && a->position == b->position && a->count == b->count;
}

static bool same_gradient(const DwgGradientFields *a, const DwgGradientBits *b) {
    bool same = a->present == b->present && a->is_single_color == b->is_single_color && a->num_colors == b->num_colors
        && same_text(&a->name, &b->name) && is_double_of(a->angle, b->angle) && is_double_of(a->shift, b->shift)
        && is_double_of(a->tint, b->tint);
    for (size_t i = 0; i < DWG_GRADIENT_COLORS; i++) {
        const DwgGradientColor *x = &a->colors[i];
        const DwgGradientColorBits *y = &b->colors[i];
        same = same && is_double_of(x->unknown_double, y->unknown_double) && x->unknown_short == y->unknown_short && x->rgb == y->rgb
            && x->ignored_color_byte == y->ignored_color_byte;
    }
    return same;
}

static bool same_fields(const DwgBodyFields *a, const DwgBodyFields *b) {
    return same_text(&a->pattern_name, &b->pattern_name) && a->solid_fill == b->solid_fill && a->associative == b->associative
        && a->pattern_double == b->pattern_double && a->pattern_style == b->pattern_style && a->pattern_type == b->pattern_type
        && a->num_paths == b->num_paths && a->num_pattern_lines == b->num_pattern_lines && a->num_seed_points == b->num_seed_points
        && a->words_used == b->words_used && a->numbers_used == b->numbers_used;
}

static bool same_body(const DwgBodyAnswer *a, const DwgBodyBitsAnswer *b) {
    return a->refusal == b->refusal && a->place == b->place && a->string_place == b->string_place
        && same_gradient(&a->gradient, &b->gradient) && is_double_of(a->elevation, b->elevation)
        && is_double_of(a->extrusion_x, b->extrusion_x) && is_double_of(a->extrusion_y, b->extrusion_y)
        && is_double_of(a->extrusion_z, b->extrusion_z) && is_double_of(a->pattern_angle, b->pattern_angle)
        && is_double_of(a->pattern_scale, b->pattern_scale) && is_double_of(a->pixel_size, b->pixel_size)
        && same_fields(&a->fields, &b->fields);
}

/* A refused record: the number, the places, and 0 for all else. */
static void check_refused(const DwgBodyBitsAnswer *b) {
    static const DwgBodyAnswer zero;
    DwgBodyAnswer refused = zero;
    refused.refusal = b->refusal;
    refused.place = b->place;
    refused.string_place = b->string_place;
    claim(same_body(&refused, b), "a refused hatch is 0 but for its number and places");
}

/* Colours past their count are 0. */
static void check_colors(const DwgGradientBits *g) {
    claim(g->num_colors <= DWG_GRADIENT_COLORS && (g->present || g->num_colors == 0), "a gradient has at most 16 colours, an absent one none");
    for (size_t i = g->num_colors; i < DWG_GRADIENT_COLORS; i++) {
        const DwgGradientColorBits *c = &g->colors[i];
        claim(c->unknown_double == 0 && c->unknown_short == 0 && c->rgb == 0 && c->ignored_color_byte == 0, "colours past their count are 0");
    }
}

static void put_gradient(Line *line, const DwgGradientBits *g, const Request *r) {
    put(line, " grad=%d gangle=", g->present);
    put_bits(line, g->angle);
    put(line, " gshift=");
    put_bits(line, g->shift);
    put(line, " gsingle=%u gtint=", g->is_single_color);
    put_bits(line, g->tint);
    put(line, " gn=%zu gcols=%s", g->num_colors, g->num_colors == 0 ? "-" : "");
    for (size_t i = 0; i < g->num_colors; i++) {
        const DwgGradientColorBits *c = &g->colors[i];
        put(line, i == 0 ? "" : ";");
        put_bits(line, c->unknown_double);
        put(line, "/%d/%u/%u", c->unknown_short, c->rgb, c->ignored_color_byte);
    }
    put(line, " gname=");
    put_text(line, &g->name, r);
}

static void put_record(Line *line, const DwgBodyBitsAnswer *b, const Request *r) {
    const DwgBodyFields *f = &b->fields;
    put(line, "ok %zu %zu", b->place, b->string_place);
    put_gradient(line, &b->gradient, r);
    put(line, " elev=");
    put_bits(line, b->elevation);
    put(line, " ext=");
    put_bits(line, b->extrusion_x);
    put(line, ",");
    put_bits(line, b->extrusion_y);
    put(line, ",");
    put_bits(line, b->extrusion_z);
    put(line, " name=");
    put_text(line, &f->pattern_name, r);
    put(line, " solid=%d assoc=%d style=%u type=%u pangle=", f->solid_fill, f->associative, f->pattern_style, f->pattern_type);
    put_bits(line, b->pattern_angle);
    put(line, " pscale=");
    put_bits(line, b->pattern_scale);
    put(line, " pdouble=%d pixel=", f->pattern_double);
    put_bits(line, b->pixel_size);
    put(line, " npaths=%zu nlines=%zu nseeds=%zu", f->num_paths, f->num_pattern_lines, f->num_seed_points);
    put(line, " nw=%zu nn=%zu", f->words_used, f->numbers_used);
}

static void put_words(Line *line, const uint32_t *words, size_t used) {
    put(line, " words=%s", used == 0 ? "-" : "");
    for (size_t i = 0; i < used; i++) {
        put(line, i == 0 ? "" : ",");
        put_number(line, words[i]);
    }
}

static void put_numbers(Line *line, const uint64_t *bits, size_t used) {
    put(line, " nums=%s", used == 0 ? "-" : "");
    for (size_t i = 0; i < used; i++) {
        put(line, i == 0 ? "" : ",");
        put_bits(line, bits[i]);
    }
}

void answer_hatch(const Request *r, Line *line) {
    DwgLengthsAnswer needed = measured(r);
    claim(needed.refusal == 0 || (needed.words == 0 && needed.numbers == 0), "a refused measuring has lengths 0");
    Lent lent;
    lend_lists(r, &needed, &lent);
    bool room = lent.num_words >= needed.words && lent.num_numbers >= needed.numbers;
    DwgBodyBitsAnswer b = read_bits(r, &lent);
    DwgBodyAnswer a = read_doubles(r, &lent);
    claim(same_body(&a, &b), "both entries of a hatch give the same record");
    claim(b.refusal == (needed.refusal != 0 || room ? needed.refusal : DWG_LIST_TOO_SHORT), "a hatch is read if it was measured and there is room");
    claim(b.place == needed.place && b.string_place == needed.string_place, "measuring and reading end alike");
    claim(b.refusal != 0 || (b.fields.words_used == needed.words && b.fields.numbers_used == needed.numbers), "what was measured is used");
    check_numbers(&lent, b.fields.numbers_used);
    check_seeds(&b.fields, lent.num_numbers);
    check_words(&lent, b.fields.words_used);
    if (b.refusal != 0) {
        check_refused(&b);
        put_refusal(line, b.refusal, b.place, b.string_place);
    } else {
        check_colors(&b.gradient);
        put_record(line, &b, r);
        put_words(line, lent.words, b.fields.words_used);
        put_numbers(line, lent.bits, b.fields.numbers_used);
    }
    take_lists_back(&lent);
}
