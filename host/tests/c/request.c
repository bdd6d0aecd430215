/* A line of the protocol as a request. */
#include "calls.h"

#include <errno.h>
#include <stdlib.h>
#include <string.h>

static const char *const names[KINDS] = {"b",  "bb", "3b", "bs",     "bsu", "bl", "blu",    "bd",     "bll",   "rc",
                                         "rs", "rl", "rd", "handle", "dd",  "tv", "(none)", "prefix", "hatch", "hatchs", "move",
                                         "cp1252", "uncp1252"};

/* The next word of the line, or NULL. */
static const char *next_word(char **rest) {
    return strtok_r(NULL, " \t\r\n", rest);
}

static bool number(const char *word, size_t *value) {
    if (word == NULL || word[0] == 0 || word[strspn(word, "0123456789")] != 0) {
        return false;
    }
    errno = 0;
    *value = (size_t)strtoull(word, NULL, 10);
    return errno == 0;
}

static int digit(char c) {
    const char *digits = "0123456789abcdef0123456789ABCDEF";
    const char *found = c == 0 ? NULL : strchr(digits, c);
    return found == NULL ? -1 : (int)((found - digits) % 16);
}

/* `-`, `zN`, or bytes in hexadecimal. A payload above the limit is lent with one byte more than it, since it is refused unread. */
static bool payload(const char *word, Slot slot, Payload *out) {
    size_t length = 0;
    if (word == NULL) {
        return false;
    }
    bool zeros = word[0] == 'z' && number(word + 1, &length);
    if (!zeros && strcmp(word, "-") != 0) {
        length = strlen(word) / 2;
        if (length == 0 || strlen(word) % 2 != 0) {
            return false;
        }
    }
    length = length > DWG_PAYLOAD_LIMIT + 1 ? DWG_PAYLOAD_LIMIT + 1 : length;
    uint8_t *bytes = (uint8_t *)lend(slot, length); /* zeros, by lend_exact.c */
    for (size_t i = 0; i < length && !zeros; i++) {
        if (digit(word[2 * i]) < 0 || digit(word[2 * i + 1]) < 0) {
            take_back(slot, bytes);
            return false;
        }
        bytes[i] = (uint8_t)(16 * digit(word[2 * i]) + digit(word[2 * i + 1]));
    }
    *out = (Payload){bytes, length};
    return true;
}

static bool lent_lengths(char **rest, Request *r) {
    const char *word = next_word(rest);
    if (word == NULL) {
        return true;
    }
    r->lent = true;
    return strcmp(word, "L") == 0 && number(next_word(rest), &r->words) && number(next_word(rest), &r->numbers) && next_word(rest) == NULL;
}

static bool pattern(const char *word, uint64_t *bits) {
    if (word == NULL || strlen(word) != 16 || word[strspn(word, "0123456789abcdefABCDEF")] != 0) {
        return false;
    }
    *bits = strtoull(word, NULL, 16);
    return true;
}

/* A release other than 1 to 7 makes a single code no request. */
static bool release(const char *word, Request *r) {
    size_t value = 0;
    bool is_number = number(word, &value);
    r->release = value;
    return is_number && (r->kind >= KIND_PREFIX || (value >= 1 && value <= 7));
}

/* Four digits for each unit, `-` for none; as bytes, the low one first. */
static bool units(const char *word, Payload *out) {
    size_t length = word == NULL ? 0 : strlen(word);
    bool none = length == 1 && word[0] == '-';
    if (length == 0 || (!none && (length % 4 != 0 || word[strspn(word, "0123456789abcdefABCDEF")] != 0))) {
        return false;
    }
    length = none ? 0 : length / 2;
    uint8_t *bytes = (uint8_t *)lend(SLOT_MAIN, length);
    for (size_t i = 0; i < length; i++) {
        size_t at = 2 * (i ^ 1);
        bytes[i] = (uint8_t)(16 * digit(word[at]) + digit(word[at + 1]));
    }
    *out = (Payload){bytes, length};
    return true;
}

/* HEX or UNITS, and [L ROOM]. A list of zeros that is longer than a payload may be is none. */
static bool conversion(char **rest, Request *r) {
    const char *word = next_word(rest);
    if (!(r->kind == KIND_CP1252 ? payload(word, SLOT_MAIN, &r->main) && r->main.length <= DWG_PAYLOAD_LIMIT : units(word, &r->main))) {
        return false;
    }
    word = next_word(rest);
    r->lent = word != NULL;
    return word == NULL || (strcmp(word, "L") == 0 && number(next_word(rest), &r->room) && next_word(rest) == NULL);
}

bool parse(char *text, Request *r) {
    char *rest = NULL;
    const char *name = strtok_r(text, " \t\r\n", &rest);
    for (r->kind = KIND_B; name != NULL && r->kind < KINDS && strcmp(name, names[r->kind]) != 0; r->kind = (Kind)(r->kind + 1)) {
    }
    if (r->kind == KIND_MOVE) {
        return parse_move(rest, r);
    }
    if (r->kind == KIND_CP1252 || r->kind == KIND_UNCP1252) {
        return conversion(&rest, r);
    }
    if (name == NULL || r->kind == KINDS || r->kind == KIND_STRING_TV || !release(next_word(&rest), r)
        || !number(next_word(&rest), &r->start) || !payload(next_word(&rest), SLOT_MAIN, &r->main)) {
        return false;
    }
    if (r->kind == KIND_DD) {
        return pattern(next_word(&rest), &r->fallback) && next_word(&rest) == NULL;
    }
    if (r->kind == KIND_HATCHS
        && !(number(next_word(&rest), &r->string_start) && number(next_word(&rest), &r->string_end)
             && payload(next_word(&rest), SLOT_STRING, &r->string))) {
        return false;
    }
    return r->kind == KIND_HATCH || r->kind == KIND_HATCHS ? lent_lengths(&rest, r) : next_word(&rest) == NULL;
}

