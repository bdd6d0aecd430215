/* A record and its lists as the fields of a request: the protocol's R. */
#include "calls.h"

#include <errno.h>
#include <stdlib.h>
#include <string.h>

/* The fields, each at most once; the first ones are whole numbers up to `most`, then come doubles. */
typedef enum Field {
    GRAD, GFLAG, GSINGLE, GN, SOLID, ASSOC, STYLE, TYPE, PDOUBLE, NPATHS, NLINES, NSEEDS, NW, NN,
    GANGLE, GSHIFT, GTINT, ELEV, PANGLE, PSCALE, PIXEL, GCOLS, GNAME, EXT, NAME, WORDS, NUMS, FIELDS
} Field;

static const char *const names[FIELDS] = {"grad",   "gflag",  "gsingle", "gn",     "solid", "assoc",  "style",  "type",  "pdouble",
                                          "npaths", "nlines", "nseeds",  "nw",     "nn",    "gangle", "gshift", "gtint", "elev",
                                          "pangle", "pscale", "pixel",   "gcols",  "gname", "ext",    "name",   "words", "nums"};
static const uint64_t most[NN + 1] = {1,          UINT32_MAX, UINT32_MAX, UINT64_MAX, 255,        255,        65535,
                                      65535,      255,        UINT64_MAX, UINT64_MAX, UINT64_MAX, UINT64_MAX, UINT64_MAX};

static bool number(const char *word, uint64_t greatest, uint64_t *value) {
    if (word == NULL || word[0] == 0 || word[strspn(word, "0123456789")] != 0) {
        return false;
    }
    errno = 0;
    *value = strtoull(word, NULL, 10);
    return errno == 0 && *value <= greatest;
}

static bool double_bits(const char *word, uint64_t *bits) {
    if (word == NULL || strlen(word) != 16 || word[strspn(word, "0123456789abcdefABCDEF")] != 0) {
        return false;
    }
    *bits = strtoull(word, NULL, 16);
    return true;
}

/* The next part of a text up to a separator, which may be empty; NULL behind the last one. */
static char *part(char **rest, char separator) {
    char *begin = *rest, *end = begin == NULL ? NULL : strchr(begin, separator);
    if (end != NULL) {
        *end = 0;
    }
    *rest = end == NULL ? NULL : end + 1;
    return begin;
}

/* DOUBLE/SHORT/RGB/BYTE. */
static bool color(char *text, DwgGradientColorBits *out) {
    uint64_t rgb, byte, magnitude;
    if (!double_bits(part(&text, '/'), &out->unknown_double)) {
        return false;
    }
    char *number_word = part(&text, '/');
    bool minus = number_word != NULL && number_word[0] == '-';
    if (!number(number_word == NULL ? NULL : number_word + minus, minus ? 32768 : 32767, &magnitude)
        || !number(part(&text, '/'), UINT32_MAX, &rgb) || !number(part(&text, '/'), 255, &byte) || text != NULL) {
        return false;
    }
    out->unknown_short = (int16_t)(minus ? -(int32_t)magnitude : (int32_t)magnitude);
    out->rgb = (uint32_t)rgb;
    out->ignored_color_byte = (uint8_t)byte;
    return true;
}

static bool colors(char *text, DwgGradientBits *gradient) {
    bool good = true;
    if (strcmp(text, "-") == 0) {
        return true;
    }
    for (size_t i = 0; good && text != NULL; i++) {
        good = i < DWG_GRADIENT_COLORS && color(part(&text, ';'), &gradient->colors[i]);
    }
    return good;
}

/* SOURCE:WIDTH:POSITION:COUNT:UNITS:PADDED. */
static bool text_fields(char *text, DwgTextFields *out) {
    const char *source = part(&text, ':');
    uint64_t width, position, count, padded;
    if (strlen(source) != 1 || strchr("-ms", source[0]) == NULL || !number(part(&text, ':'), 255, &width) || !number(part(&text, ':'), UINT64_MAX, &position)
        || !number(part(&text, ':'), UINT64_MAX, &count)) {
        return false;
    }
    const char *units = part(&text, ':');
    if (units == NULL || !number(part(&text, ':'), 1, &padded) || text != NULL) {
        return false;
    }
    DwgSource from = source[0] == 'm' ? DWG_SOURCE_MAIN : source[0] == 's' ? DWG_SOURCE_STRING : DWG_SOURCE_NONE;
    *out = (DwgTextFields){(uint8_t)from, (uint8_t)width, padded == 1, position, count};
    bool whole = (width == 8 || width == 16) && units[0] != 0 && strlen(units) % (width / 4) == 0;
    return strcmp(units, "-") == 0 || (whole && units[strspn(units, "0123456789abcdefABCDEF")] == 0);
}

/* A list, `-` for an empty one; each entry is a double's bits or, of words, a number. The list grows by whole blocks. */
static bool list(char *text, bool words, Given *g) {
    size_t room = strlen(text) / 2 + 1, count = 0;
    uint64_t value = 0;
    g->words = words ? (uint32_t *)realloc(g->words, 4 * room) : g->words;
    g->bits = words ? g->bits : (uint64_t *)realloc(g->bits, 8 * room);
    claim(g->words != NULL && g->bits != NULL, "there is memory for a list");
    if (strcmp(text, "-") == 0) {
        return true;
    }
    for (; text != NULL; count++) {
        char *entry = part(&text, ',');
        if (!(words ? number(entry, UINT32_MAX, &value) : double_bits(entry, &value))) {
            return false;
        }
        if (words) {
            g->words[count] = (uint32_t)value;
        } else {
            g->bits[count] = value;
        }
    }
    *(words ? &g->num_words : &g->num_bits) = count;
    return true;
}

static bool extrusion(char *text, DwgBodyBitsAnswer *hatch) {
    return double_bits(part(&text, ','), &hatch->extrusion_x) && double_bits(part(&text, ','), &hatch->extrusion_y)
        && double_bits(part(&text, ','), &hatch->extrusion_z) && text == NULL;
}

static void set_number(Given *g, Field field, uint64_t value) {
    DwgBodyFields *f = &g->hatch.fields;
    switch (field) {
    case GRAD: g->hatch.gradient.present = value == 1; break;
    case GSINGLE: g->hatch.gradient.is_single_color = (uint32_t)value; break;
    case GN: g->hatch.gradient.num_colors = value; break;
    case SOLID: SWITCH(g, solid_fill) = (unsigned char)value; break;
    case ASSOC: SWITCH(g, associative) = (unsigned char)value; break;
    case PDOUBLE: SWITCH(g, pattern_double) = (unsigned char)value; break;
    case STYLE: f->pattern_style = (uint16_t)value; break;
    case TYPE: f->pattern_type = (uint16_t)value; break;
    case NPATHS: f->num_paths = value; break;
    case NLINES: f->num_pattern_lines = value; break;
    case NSEEDS: f->num_seed_points = value; break;
    case NW: f->words_used = value; break;
    case NN: f->numbers_used = value; break;
    default: break; /* gflag has no place in the record yet */
    }
}

static bool set_double(Given *g, Field field, const char *text) {
    DwgBodyBitsAnswer *h = &g->hatch;
    switch (field) {
    case GANGLE: return double_bits(text, &h->gradient.angle);
    case GSHIFT: return double_bits(text, &h->gradient.shift);
    case GTINT: return double_bits(text, &h->gradient.tint);
    case ELEV: return double_bits(text, &h->elevation);
    case PANGLE: return double_bits(text, &h->pattern_angle);
    case PSCALE: return double_bits(text, &h->pattern_scale);
    default: return double_bits(text, &h->pixel_size);
    }
}

static bool set(Given *g, Field field, char *text) {
    uint64_t value = 0;
    if (field <= NN) {
        bool good = number(text, most[field], &value);
        set_number(g, field, value);
        return good;
    }
    switch (field) {
    case GCOLS: return colors(text, &g->hatch.gradient);
    case GNAME: return text_fields(text, &g->hatch.gradient.name);
    case EXT: return extrusion(text, &g->hatch);
    case NAME: return text_fields(text, &g->hatch.fields.pattern_name);
    case WORDS: return list(text, true, g);
    case NUMS: return list(text, false, g);
    default: return set_double(g, field, text);
    }
}

bool parse_move(char *rest, Request *r) {
    static Given given;
    bool seen[FIELDS] = {false};
    given = (Given){.words = given.words, .bits = given.bits};
    given.words = given.words == NULL ? (uint32_t *)malloc(4) : given.words;
    given.bits = given.bits == NULL ? (uint64_t *)malloc(8) : given.bits;
    r->given = &given;
    if (!double_bits(strtok_r(NULL, " \t\r\n", &rest), &given.x) || !double_bits(strtok_r(NULL, " \t\r\n", &rest), &given.y)) {
        return false;
    }
    for (char *word = strtok_r(NULL, " \t\r\n", &rest); word != NULL; word = strtok_r(NULL, " \t\r\n", &rest)) {
        char *value = strchr(word, '=');
        unsigned field = 0;
        for (; value != NULL && field < FIELDS && (strncmp(word, names[field], (size_t)(value - word)) != 0 || names[field][value - word] != 0); field++) {
        }
        if (value == NULL || field == FIELDS || seen[field] || !set(&given, (Field)field, value + 1)) {
            return false;
        }
        seen[field] = true;
    }
    given.hatch.fields.words_used = seen[NW] ? given.hatch.fields.words_used : given.num_words;
    given.hatch.fields.numbers_used = seen[NN] ? given.hatch.fields.numbers_used : given.num_bits;
    return true;
}
