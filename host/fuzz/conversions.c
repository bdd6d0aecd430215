/* Conversions by code page 1252: the output's length, the request line, and what is looked at beside what ../tests/c looks at. */
#include "input.h"

#include <string.h>

static bool is_back(const Request *r) {
    return r->kind == KIND_UNCP1252;
}

/* How many bytes an entry of the list that is converted has, and one of the output; how many entries there are. */
static size_t width_from(const Request *r) {
    return is_back(r) ? 2 : 1;
}

static size_t width_to(const Request *r) {
    return is_back(r) ? 1 : 2;
}

static size_t length_of(const Request *r) {
    return r->main.length / width_from(r);
}

bool is_conversion(const Request *r) {
    return r->kind == KIND_CP1252 || r->kind == KIND_UNCP1252;
}

/* `more` is signed: so many entries more than needed, none below none; -128 stands for none. */
void set_room(Request *r, uint8_t more) {
    size_t length = length_of(r), less = 0x100u - more;
    r->lent = true;
    r->room = more < 0x80 ? length + more : more == 0x80 || less > length ? 0 : length - less;
}

void put_conversion(Line *line, const Request *r) {
    put(line, is_back(r) ? "uncp1252 %s" : "cp1252 %s", r->main.length == 0 ? "-" : "");
    for (size_t i = 0; i < r->main.length; i++) {
        put_unit(line, r->main.bytes[is_back(r) ? i ^ 1 : i], 8); /* of a unit the high byte is written first */
    }
    put(line, " L %zu", r->room);
}

static DwgConversionAnswer convert(bool back, const void *from, size_t length, void *to, size_t room) {
    return back ? dwg_cp1252_to_bytes((const uint16_t *)from, length, (uint8_t *)to, room)
                : dwg_cp1252_to_units((const uint8_t *)from, length, (uint16_t *)to, room);
}

/* What was converted is converted back. */
static void check_back(const Request *r, const void *to) {
    uint8_t *again = (uint8_t *)lend(SLOT_WORDS, r->main.length);
    DwgConversionAnswer a = convert(!is_back(r), to, length_of(r), again, length_of(r));
    claim(a.refusal == 0 && a.count == length_of(r), "what was converted can be converted back");
    claim(memcmp(again, r->main.bytes, r->main.length) == 0, "the way back gives what was converted");
    take_back(SLOT_WORDS, again);
}

/* The list in place, and an output of all its length that holds `held` and nothing else: what is not written still does, and the line is the same. */
void check_conversion(const Request *r, const Line *line, uint8_t held) {
    static Line again;
    uint8_t *to = (uint8_t *)lend(SLOT_BITS, width_to(r) * r->room);
    memset(to, held, width_to(r) * r->room);
    DwgConversionAnswer a = convert(is_back(r), r->main.bytes, length_of(r), to, r->room);
    claim(a.count <= r->room, "no more is written than there is room for");
    for (size_t i = width_to(r) * a.count; i < width_to(r) * r->room; i++) {
        claim(to[i] == held, "an entry that is not written is as it was");
    }
    again.length = 0;
    if (a.refusal != 0) {
        put_refusal(&again, a.refusal, a.place, a.string_place);
    } else {
        check_back(r, to);
        put(&again, "ok %zu %s", a.count, a.count == 0 ? "-" : "");
        for (size_t i = 0; i < a.count; i++) {
            put_unit(&again, is_back(r) ? to[i] : ((const uint16_t *)(const void *)to)[i], is_back(r) ? 8 : 16);
        }
    }
    claim(strcmp(line->text, again.text) == 0, "what the output held, and its length where it is enough, do not matter");
    take_back(SLOT_BITS, to);
}
