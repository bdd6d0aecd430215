/* Reads a hatch body through dwg_hatch.h and prints it: measure, lend, read, move, print.
 *
 *     hatch [-1252] [RELEASE HEX [START [X Y]]]   a payload in hexadecimal and its start bit, and an origin that it is moved to; without words a hatch of
 *                                                 one seed point is read; with -1252 names of 8-bit units are characters of that code page
 *
 * cc -Ihost/include host/examples/hatch.c libdwg_hatch.a -o hatch      Exit status 0: read; 1: refused; 2: bad usage. */
#include <dwg_hatch.h>
#include <inttypes.h>
#include <stdio.h>
#include <stdlib.h>
#include <string.h>

/* What 8-bit units of names stand for. */
static DwgCodePage page = DWG_CODE_PAGE_UNKNOWN;

/* The lists of a reading, taken from the front as they are printed. */
typedef struct Lists {
    const uint32_t *words;
    const double *numbers;
} Lists;

static int fail(int status, const char *what) {
    fprintf(stderr, "hatch: %s\n", what);
    return status;
}

static int refused(uint64_t number, size_t place, size_t string_place) {
    printf("refusal %" PRIu64 " at bits %zu and %zu: %s\n", number, place, string_place, dwg_refusal_meaning(number));
    return 1;
}

/* Prints the next words of the list, and gives back the last one. */
static uint32_t words(Lists *lists, size_t count) {
    for (size_t i = 0; i < count; i++) {
        printf(" %" PRIu32, lists->words[i]);
    }
    lists->words += count;
    return count == 0 ? 0 : lists->words[-1];
}

static void numbers(Lists *lists, const char *name, size_t count) {
    printf("\n    %s:", name);
    for (size_t i = 0; i < count; i++) {
        printf(" %.17g", lists->numbers[i]);
    }
    lists->numbers += count;
}

static void edge(Lists *lists) {
    printf("\n  edge:");
    uint32_t kind = words(lists, 1);
    if (kind == DWG_EDGE_LINE) {
        numbers(lists, "start, end", 4);
    } else if (kind == DWG_EDGE_ARC) {
        words(lists, 1);
        numbers(lists, "centre, radius, angles", 5);
    } else if (kind == DWG_EDGE_ELLIPSE) {
        words(lists, 1);
        numbers(lists, "centre, endpoint, ratio, angles", 7);
    } else {
        const uint32_t *of = lists->words; /* degree, rational, periodic, knots, controls, fits */
        words(lists, 6);
        numbers(lists, "knots", of[3]);
        numbers(lists, of[1] ? "controls with weights" : "controls", (size_t)of[4] * (of[1] ? 3 : 2));
        numbers(lists, "fits, tangents", of[5] == 0 ? 0 : 2 * (size_t)of[5] + 4);
    }
}

static void path(Lists *lists, size_t index) {
    printf("path %zu:", index);
    uint32_t flags = words(lists, 1);
    if (flags & DWG_PATH_POLYLINE) {
        uint32_t bulge = *lists->words, vertices = words(lists, 3);
        numbers(lists, bulge ? "vertices with bulges" : "vertices", (size_t)vertices * (bulge ? 3 : 2));
    } else {
        for (uint32_t left = words(lists, 1); left > 0; left--) {
            edge(lists);
        }
    }
    printf("\n  handles:");
    words(lists, 1);
    printf("\n");
}

/* A text of the main payload, its characters as far as they fit, and whether a closing zero was dropped. */
static void text(const char *what, const uint8_t *payload, size_t length, DwgTextFields at) {
    char characters[256];
    size_t bytes = dwg_text_utf8_in_page(page, payload, length, at.width, at.position, at.count, characters, sizeof characters);
    printf("%s \"%s\"%s: %zu units of %u bits at bit %zu%s\n", what, characters, bytes < sizeof characters ? "" : "...", at.count, at.width, at.position,
           at.padded ? ", padded" : "");
}

static void print(const DwgBodyAnswer *a, Lists lists, const uint8_t *payload, size_t length) {
    const DwgBodyFields *f = &a->fields;
    const double *first = lists.numbers;
    printf("read to bit %zu: %zu words, %zu numbers\n", a->place, f->words_used, f->numbers_used);
    printf("gradient: present %d, angle %.17g, %zu colours\n", a->gradient.present, a->gradient.angle, a->gradient.num_colors);
    text("gradient's name", payload, length, a->gradient.name);
    printf("elevation %.17g, extrusion %.17g %.17g %.17g\n", a->elevation, a->extrusion_x, a->extrusion_y, a->extrusion_z);
    text("name", payload, length, f->pattern_name);
    printf("solid %d, associative %d, style %u, type %u\n", f->solid_fill, f->associative, f->pattern_style, f->pattern_type);
    printf("pattern: angle %.17g, scale %.17g, double %d\n", a->pattern_angle, a->pattern_scale, f->pattern_double);
    printf("pixel size %.17g\n", a->pixel_size);
    for (size_t i = 0; i < f->num_paths; i++) {
        path(&lists, i);
    }
    for (size_t i = 0; i < f->num_pattern_lines; i++) {
        printf("line %zu, dashes:", i);
        numbers(&lists, "angle, origin, offset, dashes", 5 + (size_t)words(&lists, 1));
        printf("\n");
    }
    DwgSeedPart seeds = dwg_hatch_seed_points(f->numbers_used, f->num_seed_points, f->numbers_used);
    lists.numbers = first + seeds.begin;
    printf("seeds: %zu", f->num_seed_points);
    numbers(&lists, "x, y of each", seeds.count);
    printf("\n");
}

/* Measure, lend, read, move if there is an origin, print. */
static int read_hatch(const uint8_t *payload, size_t length, size_t start, uint64_t release, char *const *origin) {
    DwgLengthsAnswer needed = dwg_hatch_measure(payload, length, start, release);
    if (needed.refusal != DWG_READ) {
        return refused(needed.refusal, needed.place, needed.string_place);
    }
    double *list = malloc((needed.numbers + 1) * sizeof *list); /* one more, since a list's pointer is never null */
    uint32_t *more = malloc((needed.words + 1) * sizeof *more);
    if (list == NULL || more == NULL) {
        return fail(1, "there is no memory for the lists");
    }
    DwgBodyAnswer a = dwg_hatch_decode(payload, length, start, release, list, needed.numbers, more, needed.words);
    DwgMoveAnswer moved = {a.refusal, a.place, a.string_place};
    if (a.refusal == DWG_READ && origin != NULL) {
        moved = dwg_hatch_move_origin(a, more, needed.words, list, needed.numbers, strtod(origin[0], NULL), strtod(origin[1], NULL));
    }
    if (moved.refusal == DWG_READ) {
        print(&a, (Lists){more, list}, payload, length);
    }
    free(list);
    free(more);
    return moved.refusal == DWG_READ ? 0 : refused(moved.refusal, moved.place, moved.string_place);
}

int main(int count, char **arguments) {
    if (count > 1 && strcmp(arguments[1], "-1252") == 0) {
        page = DWG_CODE_PAGE_1252;
        arguments++;
        count--;
    }
    const char *release = count > 1 ? arguments[1] : "2", *start = count > 3 ? arguments[3] : "0";
    const char *hex = count > 2 ? arguments[2] : "A9AA901000000000000000000000000000000000";
    size_t digits = strspn(hex, "0123456789abcdefABCDEF");
    if (count == 2 || count == 5 || count > 6 || hex[digits] != 0 || digits % 2 != 0 || *release == 0 || release[strspn(release, "0123456789")] != 0
        || *start == 0 || start[strspn(start, "0123456789")] != 0) {
        return fail(2, "usage: hatch [-1252] [RELEASE HEX [START [X Y]]]: a number, pairs of hexadecimal digits, a bit number, an origin");
    }
    uint8_t *payload = malloc(digits / 2 + 1);
    if (payload == NULL) {
        return fail(1, "there is no memory for the payload");
    }
    for (size_t i = 0; i < digits / 2; i++) {
        char two[] = {hex[2 * i], hex[2 * i + 1], 0};
        payload[i] = (uint8_t)strtoul(two, NULL, 16);
    }
    int status = read_hatch(payload, digits / 2, (size_t)strtoull(start, NULL, 10), strtoull(release, NULL, 10), count > 4 ? arguments + 4 : NULL);
    free(payload);
    return status;
}
