/* Every start bit of a string reader: of string payloads of 0 to 40 bytes, inside them, at their end and up to 64 bits past it, and a few starts far
 * past it. Each request is answered by the library through its C headers (../host/tests/c, which looks at every claim of them) and by the Rust, and the
 * two lines must be the same. oracle/README.md says what is asked, oracle/starts builds and runs it.
 *
 *   starts [REQUESTS ANSWERS]       the hatches go to these two files too, as request lines and as the Rust's answer lines
 *   starts --first                  ends at the first difference
 *
 * Exit status 0: no difference, and every way was reached; 1: not so. */
#include "rust_answer.h"

#include <stdio.h>
#include <stdlib.h>
#include <string.h>

#define LONGEST 40u   /* bytes of a string payload */
#define BITS_PAST 64u /* how far past its end the starts go */

/* What lies at the start: so many bits, or as many of them as there are before the payload's end. All other bits are any, by any_byte. */
typedef enum Laid { LAID_TEXT, LAID_ZEROS, LAID_ONES, LAIDS } Laid;
static const struct {
    uint32_t bits;
    unsigned count;
} laid_bits[LAIDS] = {
    [LAID_TEXT] = {0x1014100, 26}, /* 01 and the byte 01: one unit; it is 0041, low byte first */
    [LAID_ZEROS] = {0, 18},        /* 00 and two bytes: length 0 */
    [LAID_ONES] = {3, 2},          /* 11: length 256, which is longer than any of these payloads */
};

/* The main bodies; each reads where its texts do. Releases 1 and 2 have one text. From 3 on seven gradient fields stand before the same bits, each of
 * tag 10, and there are two texts; or the first of the seven is a flag of 1, so that the gradient's name is handed over too. */
static const uint8_t plain[] = {0xa9, 0xaa, 0xa0};
static const uint8_t gradient_off[] = {0xaa, 0xaa, 0xa6, 0xaa, 0x80};
static const uint8_t gradient_on[] = {0x40, 0x6a, 0xaa, 0xa6, 0xaa, 0x80};

/* How a request goes by document 01, by its starts and the judge's answer. The string start's test comes before the main start's. */
typedef enum Way {
    INSIDE_READ, INSIDE_LENGTH_0, INSIDE_EXHAUSTED, INSIDE_REFUSED_1, INSIDE_REFUSED_6, INSIDE_REFUSED_7, END_EXHAUSTED, END_REFUSED_1, PAST_REFUSED_1,
    PAST_EXHAUSTED, MAIN_PAST, BOTH_PAST, WAYS
} Way;

/* The refusal of each way, and whether hatches and texts by value go it. Of a text by value no second text is read and there is no main start; a reader
 * of a hatch is not opened past its payload, so that it is not exhausted there. */
static const struct {
    const char *name;
    unsigned refusal;
    bool goes[2];
} ways[WAYS] = {
    [INSIDE_READ] = {"inside: a text is read", 0, {true, true}},
    [INSIDE_LENGTH_0] = {"inside: a length of 0, empty text", 0, {true, true}},
    [INSIDE_EXHAUSTED] = {"inside: reader at its end bit, empty text", 0, {true, true}},
    [INSIDE_REFUSED_1] = {"inside: refusal 1 in a text", 1, {true, true}},
    [INSIDE_REFUSED_6] = {"inside: refusal 6 of a text", 6, {true, true}},
    [INSIDE_REFUSED_7] = {"inside: refusal 7 of a second text", 7, {true, false}},
    [END_EXHAUSTED] = {"at the payload's end: reader at its end bit, empty text", 0, {true, true}},
    [END_REFUSED_1] = {"at the payload's end: refusal 1 in a text", 1, {true, true}},
    [PAST_REFUSED_1] = {"past the payload: refusal 1", 1, {true, true}},
    [PAST_EXHAUSTED] = {"past the payload: reader at its end bit, empty text", 0, {false, true}},
    [MAIN_PAST] = {"inside or at the end, main start past: refusal 1", 1, {true, false}},
    [BOTH_PAST] = {"past the payload, main start past too: refusal 1", 1, {true, false}},
};

static size_t counts[WAYS][2]; /* of hatches, of texts by value */
static size_t requests, differences;
static FILE *request_lines, *answer_lines; /* or NULL */
static bool ends_at_the_first;             /* difference */

/* Bits of no meaning, the same in every run. */
static uint8_t any_byte(void) {
    static uint64_t state = 1;
    state = state * 6364136223846793005u + 1442695040888963407u;
    return (uint8_t)(state >> 56);
}

static Payload laid_payload(size_t length, size_t start, Laid laid) {
    uint8_t *bytes = (uint8_t *)lend(SLOT_STRING, length);
    size_t bits = 8 * length, room = start < bits ? bits - start : 0, count = laid_bits[laid].count;
    for (size_t i = 0; i < length; i++) {
        bytes[i] = any_byte();
    }
    for (size_t i = 0; i < count && i < room; i++) {
        uint8_t mask = (uint8_t)(0x80u >> (start + i) % 8), *byte = &bytes[(start + i) / 8];
        bool set = laid_bits[laid].bits >> (count - 1 - i) & 1;
        *byte = (uint8_t)(set ? *byte | mask : *byte & ~mask);
    }
    return (Payload){bytes, length};
}

static bool is_text(const Request *r) {
    return r->kind == KIND_STRING_TV;
}

/* The reader's start, and its payload's length in bits. */
static size_t start_of(const Request *r) {
    return is_text(r) ? r->start : r->string_start;
}

static size_t bits_of(const Request *r) {
    return 8 * (is_text(r) ? r->main.length : r->string.length);
}

static Way way_inside(Laid laid, unsigned refusal) {
    claim(refusal != 0 || laid != LAID_ONES, "the judge reads no text of 256 units from so short a payload");
    switch (refusal) {
    case 0: return laid == LAID_TEXT ? INSIDE_READ : INSIDE_LENGTH_0;
    case 6: return INSIDE_REFUSED_6;
    case 7: return INSIDE_REFUSED_7;
    default: return INSIDE_REFUSED_1;
    }
}

static Way way_of(const Request *r, Laid laid, unsigned refusal) {
    size_t start = start_of(r), bits = bits_of(r);
    bool exhausted = start >= r->string_end, main_past = !is_text(r) && r->start > 8 * r->main.length;
    if (start > bits) {
        return main_past ? BOTH_PAST : is_text(r) && exhausted ? PAST_EXHAUSTED : PAST_REFUSED_1;
    }
    if (main_past) {
        return MAIN_PAST;
    }
    if (start == bits) {
        return exhausted ? END_EXHAUSTED : END_REFUSED_1;
    }
    return exhausted ? INSIDE_EXHAUSTED : way_inside(laid, refusal);
}

/* The whole answer where a start is past its payload, in document 01's words: at the main start and the string payload's end, then at both starts. Of
 * a text by value: empty at or past the end bit and not moved, else too few bits there. */
static void put_past(Line *line, const Request *r, Way way) {
    size_t start = start_of(r);
    line->length = 0;
    if (way == PAST_EXHAUSTED) {
        put(line, "ok %zu s:16:%zu:0:-:0", start, start);
    } else if (is_text(r)) {
        put_refusal(line, DWG_TOO_FEW_BITS, start, 0);
    } else {
        put_refusal(line, DWG_TOO_FEW_BITS, r->start, way == MAIN_PAST ? start : bits_of(r));
    }
}

/* Counts the request's way. The judge is looked at too: it has the way's refusal, and document 01's words where a start is past its payload. */
static void count_way(const Request *r, Laid laid, const char *judge, size_t length) {
    static Line past;
    unsigned refusal = judge[0] == 'e' ? (unsigned)strtoul(judge + 4, NULL, 10) : 0; /* a space stands behind the number */
    Way way = way_of(r, laid, refusal);
    claim(refusal == ways[way].refusal && ways[way].goes[is_text(r)], "the judge's answer is one of the ways that there are");
    if (way >= PAST_REFUSED_1) {
        put_past(&past, r, way);
        claim(past.length == length && memcmp(past.text, judge, length) == 0, "the judge answers a start past its payload as document 01 words it");
    }
    counts[way][is_text(r)]++;
}

static void put_payload(Line *line, Payload payload) {
    put(line, payload.length == 0 ? " -" : " ");
    for (size_t i = 0; i < payload.length; i++) {
        put_unit(line, payload.bytes[i], 8);
    }
}

/* The request's line; a text by value has none in the protocol, and is told so that it can be asked again. */
static void put_request(Line *line, const Request *r) {
    line->length = 0;
    if (is_text(r)) {
        put(line, "dwg_read_string_tv at %zu, end %zu, payload", r->start, r->string_end);
        put_payload(line, r->main);
        return;
    }
    put(line, "hatchs %llu %zu", (unsigned long long)r->release, r->start);
    put_payload(line, r->main);
    put(line, " %zu %zu", r->string_start, r->string_end);
    put_payload(line, r->string);
}

static void ask(const Request *r, Laid laid) {
    static Line port, asked;
    size_t length = 0;
    answer(r, &port);
    char *judge = (char *)rust_answer(r, &length);
    bool same = length == port.length && memcmp(judge, port.text, length) == 0;
    bool first = !same && differences == 0, written = request_lines != NULL && !is_text(r);
    requests++;
    differences += !same;
    count_way(r, laid, judge, length);
    if (first || written) {
        put_request(&asked, r);
    }
    if (first) {
        printf("the first difference: %s\n  the Rust: %.*s\n  the port: %s\n", asked.text, (int)length, judge, port.text);
    }
    if (first && ends_at_the_first) {
        exit(1);
    }
    if (written) {
        fprintf(request_lines, "%s\n", asked.text);
        fprintf(answer_lines, "%.*s\n", (int)length, judge);
    }
    rust_answer_done((uint8_t *)judge, length);
}

/* The body of a turn, and its release: seven releases in turn, from 3 on with the one body and then with the other. */
static uint64_t lend_body(size_t turn, Payload *main) {
    uint64_t release = 1 + turn % 7;
    bool on = turn / 7 % 2 == 1;
    const uint8_t *body = release < 3 ? plain : on ? gradient_on : gradient_off;
    size_t length = release < 3 ? sizeof plain : on ? sizeof gradient_on : sizeof gradient_off;
    uint8_t *bytes = (uint8_t *)lend(SLOT_MAIN, length);
    memcpy(bytes, body, length);
    *main = (Payload){bytes, length};
    return release;
}

/* A hatch from main start 0, or from one bit past the main payload. */
static void ask_hatch(size_t turn, Payload string, size_t start, size_t end, Laid laid, bool main_past) {
    Request r = {.kind = KIND_HATCHS, .string_start = start, .string_end = end, .string = string};
    r.release = lend_body(turn, &r.main);
    r.start = main_past ? 8 * r.main.length + 1 : 0;
    ask(&r, laid);
    take_back(SLOT_MAIN, (void *)r.main.bytes);
}

/* All that is asked of a payload's length and a start. The twelve hatches from main start 0 take every second turn, and so have all seven releases. The
 * first turn is the next one at the next start, so that what lies at the start and each end bit meet each release and body too. */
static void ask_start(size_t length, size_t start) {
    static size_t starts;
    size_t turn = starts++;
    for (Laid laid = LAID_TEXT; laid < LAIDS; laid = (Laid)(laid + 1)) {
        Payload string = laid_payload(length, start, laid);
        const size_t ends[] = {8 * length, start, start == SIZE_MAX ? start : start + 1, SIZE_MAX};
        for (size_t i = 0; i < sizeof ends / sizeof ends[0]; i++) {
            Request text = {.kind = KIND_STRING_TV, .start = start, .string_end = ends[i], .main = string};
            ask(&text, laid);
            ask_hatch(turn++, string, start, ends[i], laid, false);
            ask_hatch(turn++, string, start, ends[i], laid, true);
        }
        take_back(SLOT_STRING, (void *)string.bytes);
    }
}

static void ask_all(void) {
    static const size_t far_starts[] = {(size_t)1 << 32, (size_t)1 << 61, SIZE_MAX}, far_lengths[] = {0, 1, 7, LONGEST};
    for (size_t length = 0; length <= LONGEST; length++) {
        for (size_t start = 0; start <= 8 * length + BITS_PAST; start++) {
            ask_start(length, start);
        }
    }
    for (size_t i = 0; i < sizeof far_lengths / sizeof far_lengths[0]; i++) {
        for (size_t j = 0; j < sizeof far_starts / sizeof far_starts[0]; j++) {
            ask_start(far_lengths[i], far_starts[j]);
        }
    }
}

static void put_count(Way way, int of) {
    if (ways[way].goes[of]) {
        printf(" %9zu", counts[way][of]);
    } else {
        printf(" %9s", "-");
    }
}

/* The table of ways; how many of them were not reached. */
static size_t put_ways(void) {
    size_t missing = 0;
    printf("%-56s %9s %9s\n", "string start", "hatches", "texts");
    for (Way way = INSIDE_READ; way < WAYS; way = (Way)(way + 1)) {
        printf("%-56s", ways[way].name);
        for (int of = 0; of < 2; of++) {
            put_count(way, of);
            missing += ways[way].goes[of] && counts[way][of] == 0;
        }
        printf("\n");
    }
    return missing;
}

static FILE *opened(const char *name) {
    FILE *file = fopen(name, "w");
    claim(file != NULL, "the files for lines can be written");
    return file;
}

static void closed(FILE *file) {
    claim(file == NULL || fclose(file) == 0, "the lines are written");
}

int main(int count, char **words) {
    ends_at_the_first = count == 2 && strcmp(words[1], "--first") == 0;
    if (count == 3) {
        request_lines = opened(words[1]);
        answer_lines = opened(words[2]);
    }
    ask_all();
    closed(request_lines);
    closed(answer_lines);
    size_t missing = put_ways();
    if (missing > 0) {
        printf("ways that were not reached: %zu\n", missing);
    }
    printf("starts: %zu requests, %zu differences\n", requests, differences);
    return missing > 0 || differences > 0 ? 1 : 0;
}
