/* One request of the line protocol, answered by the library through its C headers, with every claim that the headers make about an answer
 * looked at. Used by the test of the headers (host/test-c), the memory check (host/valgrind), the fuzzer (host/fuzz) and oracle/starts. */
#ifndef CALLS_H
#define CALLS_H

#include <dwg_hatch.h>

/* The kinds of requests, in the protocol's order of names; KIND_STRING_TV, text from a string reader alone, is the fuzzer's and oracle/starts'. */
typedef enum Kind {
    KIND_B, KIND_BB, KIND_3B, KIND_BS, KIND_BSU, KIND_BL, KIND_BLU, KIND_BD, KIND_BLL, KIND_RC, KIND_RS, KIND_RL, KIND_RD, KIND_HANDLE,
    KIND_DD, KIND_TV, KIND_STRING_TV, KIND_PREFIX, KIND_HATCH, KIND_HATCHS, KIND_MOVE, KIND_CP1252, KIND_UNCP1252, KINDS
} Kind;

typedef struct Payload {
    const uint8_t *bytes;
    size_t length;
} Payload;

typedef struct Request {
    Kind kind;
    uint64_t release;
    size_t start;
    Payload main;
    size_t string_start; /* KIND_HATCHS and, for its end, KIND_STRING_TV */
    size_t string_end;
    Payload string;
    bool lent; /* whether the lengths of the lists are given; else they are long enough */
    size_t words;
    size_t numbers;
    uint64_t fallback; /* KIND_DD */
    struct Given *given; /* KIND_MOVE */
    size_t room;         /* KIND_CP1252 and KIND_UNCP1252: the output's length, if `lent`; of KIND_UNCP1252 `main` has two bytes for a unit, the low one first */
} Request;

/* A hatch to be moved, and the origin: the record as it is handed over, whatever its numbers are, and both lists. */
typedef struct Given {
    uint64_t x;
    uint64_t y;
    DwgBodyBitsAnswer hatch;
    uint32_t *words;
    size_t num_words;
    uint64_t *bits;
    size_t num_bits;
} Given;

/* A switch of the record as the byte that it is, which may be neither 0 nor 1. */
#define SWITCH(given, name) (((unsigned char *)&(given)->hatch.fields)[offsetof(DwgBodyFields, name)])

/* An answer line that grows. */
typedef struct Line {
    char *text;
    size_t length;
    size_t room;
} Line;

void put(Line *line, const char *format, ...) __attribute__((format(printf, 2, 3)));
void put_bits(Line *line, uint64_t bits); /* the protocol's D */
void put_number(Line *line, uint64_t number);
void put_text(Line *line, const DwgTextFields *text, const Request *request); /* the protocol's T */
void put_refusal(Line *line, uint64_t number, size_t place, size_t second_place);
void put_unit(Line *line, unsigned unit, unsigned bits); /* a text's unit of 8 or 16 bits, in two digits or four */

/* Ends the program unless the claim holds, with the claim's text. */
void claim(bool holds, const char *text);

/* Whether a double is the one of these bits: the very bits, or any NaN for a NaN's. */
bool is_double_of(double value, uint64_t bits);

/* Memory to lend to a call, each slot at most once at a time. It has exactly so many bytes: reading or writing past them is seen. */
typedef enum Slot { SLOT_MAIN, SLOT_STRING, SLOT_BITS, SLOT_DOUBLES, SLOT_WORDS, SLOT_MORE_WORDS, SLOT_UNITS, SLOT_BYTES, SLOTS } Slot;
void *lend(Slot slot, size_t bytes);
void take_back(Slot slot, void *memory);

/* The request that a line holds, with its payloads lent; false if it is none. The text is taken apart. */
bool parse(char *text, Request *request);

void answer(const Request *request, Line *line);
void answer_hatch(const Request *request, Line *line);
void answer_move(const Request *request, Line *line);

/* Where the seed points lie, by a record's fields, whatever they are, and a list's length. */
void check_seeds(const DwgBodyFields *fields, size_t length);

/* The hatch that the words behind `move` hand over; false if they do not. It is taken apart, and stays until the next one. */
bool parse_move(char *rest, Request *request);

#endif
