/* The fuzzer: each input is a request (input.h), answered by the library through its C headers and by the Rust, and the two lines must be
 * the same. Payloads and lists lie against a page that may not be touched, behind them or in front of them, so that a read or a write
 * outside them ends the run; calls.h's claims are looked at on every input. Then every bit past the final places is turned over, and the
 * library must give the same line again (demand 3). A move is compared with the oracle's model, since the Rust has no such call, and of it the
 * entries past the lengths used are turned over. A conversion is compared with what iconv says, by the oracle. */
#include "input.h"
#include "rust_answer.h"

#include <stdio.h>
#include <stdlib.h>
#include <string.h>
#include <sys/mman.h>

#define PAGE 4096u
#define ROOM (1024u * PAGE) /* of each slot */

static uint8_t *rooms[SLOTS];      /* each ROOM bytes between two pages that may not be touched */
static bool guard_in_front[SLOTS]; /* against which of the two pages the memory lies */

int LLVMFuzzerInitialize(int *count, char ***words);
int LLVMFuzzerTestOneInput(const uint8_t *input, size_t size);

int LLVMFuzzerInitialize(int *count, char ***words) {
    (void)count, (void)words;
    for (int slot = 0; slot < SLOTS; slot++) {
        void *memory = mmap(NULL, ROOM + 2 * PAGE, PROT_NONE, MAP_PRIVATE | MAP_ANONYMOUS, -1, 0);
        claim(memory != MAP_FAILED, "there is room for the guarded memory");
        rooms[slot] = (uint8_t *)memory + PAGE;
        claim(mprotect(rooms[slot], ROOM, PROT_READ | PROT_WRITE) == 0, "the guarded memory can be used");
    }
    return 0;
}

void *lend(Slot slot, size_t bytes) {
    claim(bytes <= ROOM, "what is lent is small");
    return guard_in_front[slot] ? rooms[slot] : rooms[slot] + ROOM - bytes;
}

void take_back(Slot slot, void *memory) {
    (void)slot, (void)memory;
}

static size_t two(const uint8_t *at) {
    size_t value = (size_t)at[0] | (size_t)at[1] << 8;
    return value == 0xffff ? SIZE_MAX : value;
}

static Payload lent_payload(Slot slot, const uint8_t *bytes, size_t length) {
    uint8_t *memory = (uint8_t *)lend(slot, length);
    memcpy(memory, bytes, length);
    return (Payload){memory, length};
}

static void place_slots(uint8_t placement) {
    for (int slot = 0; slot < SLOTS; slot++) {
        guard_in_front[slot] = placement >> (slot > SLOT_STRING) & 1;
    }
}

/* `less` entries fewer than are needed, none below none; 3 stands for one more than needed. */
static size_t shortened(size_t needed, unsigned less) {
    return less == 3 ? needed + 1 : needed > less ? needed - less : 0;
}

static void shorten_lists(Request *r, uint8_t by) {
    bool strings = r->kind == KIND_HATCHS;
    DwgLengthsAnswer needed = !strings ? dwg_hatch_measure(r->main.bytes, r->main.length, r->start, r->release)
                                       : dwg_hatch_measure_with_strings(r->main.bytes, r->main.length, r->start, r->string.bytes,
                                                                        r->string.length, r->string_start, r->string_end, r->release);
    r->lent = true;
    r->words = shortened(needed.words, by & 3);
    r->numbers = shortened(needed.numbers, by >> 2 & 3);
}

static Request request_of(const uint8_t *input, size_t size) {
    Request r;
    size_t left = size - HEAD, string_bytes = two(input + AT_STRING_BYTES);
    memset(&r, 0, sizeof r);
    r.kind = (Kind)(input[AT_KIND] % KINDS);
    r.release = input[AT_RELEASE] % 9;
    r.start = two(input + AT_START);
    r.string_start = two(input + AT_STRING_START);
    r.string_end = two(input + AT_STRING_END);
    memcpy(&r.fallback, input + AT_FALLBACK, 8);
    string_bytes = r.kind != KIND_HATCHS && r.kind != KIND_MOVE ? 0 : string_bytes < left ? string_bytes : left;
    left -= r.kind == KIND_UNCP1252 ? left % 2 : 0; /* whole units */
    place_slots(input[AT_PLACEMENT]);
    r.main = lent_payload(SLOT_MAIN, input + HEAD, left - string_bytes);
    r.string = lent_payload(SLOT_STRING, input + size - string_bytes, string_bytes);
    if (r.kind < KIND_TV) {
        r.release = 1 + input[AT_RELEASE] % 7; /* of a code any of the seven, since it changes nothing */
    }
    if ((r.kind == KIND_HATCH || r.kind == KIND_HATCHS) && (input[AT_PLACEMENT] & 4)) {
        shorten_lists(&r, input[AT_SHORT]);
    }
    if (is_conversion(&r)) {
        set_room(&r, input[AT_SHORT]);
    }
    return r;
}

/* A payload is only read. */
static void check_payload(Payload payload, const uint8_t *before) {
    claim(memcmp(payload.bytes, before, payload.length) == 0, "a payload is as it was");
}

/* The final place in each payload: after `ok`, or after `err` and the refusal's number. A code's second number is its value. */
static void places_of(const Line *line, const Request *r, size_t *main_place, size_t *string_place) {
    char *rest = line->text + 3;
    if (line->text[0] == 'e') {
        strtoull(line->text + 4, &rest, 10);
    }
    *main_place = (size_t)strtoull(rest, &rest, 10);
    *string_place = r->kind == KIND_HATCHS ? (size_t)strtoull(rest, &rest, 10) : 0;
}

/* Turns every bit from a place on over. */
static void turn_over(Payload payload, size_t place) {
    uint8_t *bytes = (uint8_t *)payload.bytes;
    for (size_t i = place / 8; i < payload.length; i++) {
        bytes[i] ^= (uint8_t)(i == place / 8 ? 0xff >> place % 8 : 0xff);
    }
}

static void check_bits_past_the_places(const Request *r, const Line *line) {
    static Line again;
    size_t main_place, string_place;
    places_of(line, r, &main_place, &string_place);
    turn_over(r->main, main_place);
    turn_over(r->string, string_place);
    answer(r, &again);
    if (strcmp(line->text, again.text) != 0) {
        fprintf(stderr, "fuzz: bits past the final places change the answer\n  before: %s\n  after: %s\n", line->text, again.text);
        abort();
    }
}

/* Entries past the lengths used do not matter: the same refusal, or the same numbers up to the length used. */
static void check_entries_past_the_lengths(const Request *r, const Line *line) {
    static Line again;
    size_t used = turn_over_lists(r->given), same = line->text[0] == 'e' || used == 0 ? 0 : strlen("ok 0 0 nums=") + 17 * used - 1;
    answer(r, &again);
    if (line->text[0] != again.text[0] || (line->text[0] == 'e' && strcmp(line->text, again.text) != 0) || strncmp(line->text, again.text, same) != 0) {
        fprintf(stderr, "fuzz: entries past the lengths used change the answer\n  before: %s\n  after: %s\n", line->text, again.text);
        abort();
    }
}

static void compare(const Line *line, uint8_t *judge, size_t length) {
    if (length != line->length || memcmp(judge, line->text, length) != 0) {
        fprintf(stderr, "fuzz: the answers differ\n  the port: %s\n  the judge: %.*s\n", line->text, (int)length, (const char *)judge);
        abort();
    }
    rust_answer_done(judge, length);
}

static void test_move(Request *r) {
    static Line line, asked;
    Given given;
    size_t length = 0;
    given_of(r, &given);
    r->given = &given;
    answer(r, &line);
    asked.length = 0;
    put_move(&asked, &given);
    uint8_t *model = model_answer((const uint8_t *)asked.text, asked.length, &length);
    compare(&line, model, length);
    check_entries_past_the_lengths(r, &line);
}

static void test_conversion(const Request *r, const uint8_t *input) {
    static Line line, asked;
    size_t length = 0;
    answer(r, &line);
    asked.length = 0;
    put_conversion(&asked, r);
    uint8_t *judge = model_answer((const uint8_t *)asked.text, asked.length, &length);
    compare(&line, judge, length);
    check_conversion(r, &line, input[AT_FALLBACK]);
    check_payload(r->main, input + HEAD);
}

int LLVMFuzzerTestOneInput(const uint8_t *input, size_t size) {
    static Line line;
    size_t length = 0;
    if (size < HEAD) {
        return -1;
    }
    Request request = request_of(input, size);
    if (request.kind == KIND_MOVE) {
        test_move(&request);
        return 0;
    }
    if (is_conversion(&request)) {
        test_conversion(&request, input);
        return 0;
    }
    answer(&request, &line);
    check_payload(request.main, input + HEAD);
    check_payload(request.string, input + size - request.string.length);
    uint8_t *rust = rust_answer(&request, &length);
    compare(&line, rust, length);
    check_bits_past_the_places(&request, &line);
    return 0;
}
