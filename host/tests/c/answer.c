/* Codes, texts, prefixes and texts converted: each by both of its entries where there are two. */
#include "calls.h"

#include <string.h>

static void put_code(Line *line, DwgCodeAnswer a) {
    if (a.refusal != 0) {
        claim(a.value == 0, "a refused code's value is 0");
        put_refusal(line, a.refusal, a.place, 0);
        return;
    }
    put(line, "ok %zu %llu", a.place, (unsigned long long)a.value);
}

static void put_signed(Line *line, DwgSignedAnswer a) {
    if (a.refusal != 0) {
        claim(a.value == 0, "a refused code's value is 0");
        put_refusal(line, a.refusal, a.place, 0);
        return;
    }
    put(line, "ok %zu %d", a.place, a.value);
}

/* A double by the entry of its 64 bits, and by that of the double. */
static void put_double(Line *line, DwgCodeAnswer bits, DwgDoubleAnswer a) {
    claim(bits.refusal == a.refusal && bits.place == a.place, "both entries of a double refuse alike and end alike");
    claim(is_double_of(a.value, bits.value), "both entries of a double give the same one");
    if (bits.refusal != 0) {
        put_code(line, bits);
        return;
    }
    put(line, "ok %zu ", bits.place);
    put_bits(line, bits.value);
}

static void put_handle(Line *line, DwgHandleAnswer a) {
    if (a.refusal != 0) {
        claim(a.code == 0 && a.counter == 0 && a.value == 0, "a refused handle is 0");
        put_refusal(line, a.refusal, a.place, 0);
        return;
    }
    put(line, "ok %zu %u,%u,%llu", a.place, a.code, a.counter, (unsigned long long)a.value);
}

static void put_text_answer(Line *line, DwgTextAnswer a, const Request *request) {
    DwgTextFields text = {a.source, a.width, a.padded, a.position, a.count};
    if (a.refusal != 0) {
        claim(a.source == 0 && a.width == 0 && !a.padded && a.position == 0 && a.count == 0, "a refused text is 0");
        put_refusal(line, a.refusal, a.place, 0);
        return;
    }
    claim(a.place == a.position + (a.count + a.padded) * a.width, "a text ends behind its units, and behind the one that was dropped");
    put(line, "ok %zu ", a.place);
    put_text(line, &text, request);
}

/* The default of the f64 entry of DD is a NaN of no pattern where it is one, so there the entries are not compared. */
static void put_dd(Line *line, const uint8_t *s, size_t length, size_t at, uint64_t fallback) {
    double as_double;
    memcpy(&as_double, &fallback, sizeof as_double);
    DwgCodeAnswer bits = dwg_read_dd_bits(s, length, at, fallback);
    DwgDoubleAnswer a = dwg_read_dd(s, length, at, as_double);
    if (as_double != as_double) {
        memcpy(&a.value, &bits.value, sizeof a.value);
    }
    put_double(line, bits, a);
}

/* Fields of one byte and more, padding apart: two records are the same if every field is. */
static bool same_fields(const DwgPrefixFields *a, const DwgPrefixFields *b) {
#define SAME(field) (a->field == b->field)
    return SAME(raw_mode) && SAME(mode) && SAME(num_reactors) && SAME(no_xdictionary) && SAME(binary_chain) && SAME(is_on_layer)
        && SAME(non_fixed_ltype) && SAME(plotstyle_flag) && SAME(material_flag) && SAME(shadow_flags) && SAME(invisibility)
        && SAME(nolinks) && SAME(color_raw) && SAME(has_color_rgb) && SAME(color_rgb) && SAME(has_color_alpha) && SAME(color_alpha)
        && SAME(ltype_flags) && SAME(full_visual_style) && SAME(face_visual_style) && SAME(edge_visual_style) && SAME(lineweight)
        && SAME(had_graphics) && SAME(had_extended_data) && SAME(has_data_end_bits) && SAME(data_end_bits);
#undef SAME
}

static void put_prefix_fields(Line *line, const DwgPrefixFields *f, uint64_t scale) {
    static const char *const modes[] = {"ByLayer", "ByPreviousEntity", "InBlock", "Reserved"};
    claim(f->mode <= 3, "a mode is 0 to 3");
    put(line, " rawmode=%u mode=%s reactors=%u nodict=%d", f->raw_mode, modes[f->mode], f->num_reactors, f->no_xdictionary);
    put(line, " chain=%d onlayer=%d nonfixed=%d plot=%u", f->binary_chain, f->is_on_layer, f->non_fixed_ltype, f->plotstyle_flag);
    put(line, " material=%u shadow=%u invis=%d nolinks=%d", f->material_flag, f->shadow_flags, f->invisibility, f->nolinks);
    put(line, " color=%u rgb=%d:%u alpha=%d:%u", f->color_raw, f->has_color_rgb, f->color_rgb, f->has_color_alpha, f->color_alpha);
    put(line, " scale=");
    put_bits(line, scale);
    put(line, " ltype=%u vis=%d,%d,%d", f->ltype_flags, f->full_visual_style, f->face_visual_style, f->edge_visual_style);
    put(line, " weight=%u gfx=%d xdata=%d", f->lineweight, f->had_graphics, f->had_extended_data);
    put(line, " dataend=%d:%u", f->has_data_end_bits, f->data_end_bits);
}

static void put_prefix(Line *line, const Request *r) {
    static const DwgPrefixFields zero;
    DwgPrefixBitsAnswer bits = dwg_read_common_entity_bits(r->main.bytes, r->main.length, r->start, r->release);
    DwgPrefixAnswer a = dwg_read_common_entity_data(r->main.bytes, r->main.length, r->start, r->release);
    claim(bits.refusal == a.refusal && bits.place == a.place, "both entries of a prefix refuse alike and end alike");
    claim(same_fields(&bits.fields, &a.fields), "both entries of a prefix give the same fields");
    claim(is_double_of(a.ltype_scale, bits.ltype_scale), "both entries of a prefix give the same scale");
    if (bits.refusal != 0) {
        claim(same_fields(&bits.fields, &zero) && bits.ltype_scale == 0, "a refused prefix is 0");
        put_refusal(line, bits.refusal, bits.place, 0);
        return;
    }
    put(line, "ok %zu 0", bits.place);
    put_prefix_fields(line, &bits.fields, bits.ltype_scale);
}

/* As long as the request says, but no longer than one more than is needed, since it may name any length. */
static size_t lent_room(const Request *r, size_t needed) {
    return !r->lent ? needed : r->room < needed + 1 ? r->room : needed + 1;
}

/* What a conversion says, and what it leaves: `same` says that the entry at an index is as it was before. */
static bool is_converted(Line *line, DwgConversionAnswer a, size_t needed, size_t room, bool (*same)(const void *, size_t), const void *output) {
    claim(a.place == 0 && a.string_place == 0, "a conversion has no places");
    claim(a.count == (a.refusal == 0 ? needed : 0), "each entry is converted, or none is");
    claim(a.refusal == 0 || a.refusal == DWG_UNDEFINED_CHARACTER || a.refusal == DWG_LIST_TOO_SHORT, "a conversion is refused for two reasons alone");
    claim(a.refusal == 0 ? needed <= room : a.refusal != DWG_LIST_TOO_SHORT || needed > room, "a shorter output is refused, and no other");
    for (size_t i = a.count; i < room; i++) {
        claim(same(output, i), "an entry past those written, and each on a refusal, keeps every bit");
    }
    if (a.refusal != 0) {
        put_refusal(line, a.refusal, a.place, a.string_place);
        return false;
    }
    put(line, "ok %zu %s", a.count, a.count == 0 ? "-" : "");
    return true;
}

#define UNIT_MARK 0x5a5au
#define BYTE_MARK 0x5au

static bool is_unit_mark(const void *units, size_t at) {
    return ((const uint16_t *)units)[at] == UNIT_MARK;
}

static bool is_byte_mark(const void *bytes, size_t at) {
    return ((const uint8_t *)bytes)[at] == BYTE_MARK;
}

static void put_units(Line *line, const Request *r) {
    size_t count = r->main.length, room = lent_room(r, count);
    uint16_t *units = (uint16_t *)lend(SLOT_UNITS, 2 * room);
    for (size_t i = 0; i < room; i++) {
        units[i] = UNIT_MARK;
    }
    if (is_converted(line, dwg_cp1252_to_units(r->main.bytes, count, units, room), count, room, is_unit_mark, units)) {
        for (size_t i = 0; i < count; i++) {
            put_unit(line, units[i], 16);
        }
    }
    take_back(SLOT_UNITS, units);
}

static void put_bytes(Line *line, const Request *r) {
    size_t count = r->main.length / 2, room = lent_room(r, count);
    uint16_t *units = (uint16_t *)lend(SLOT_UNITS, 2 * count);
    uint8_t *bytes = (uint8_t *)lend(SLOT_BYTES, room);
    for (size_t i = 0; i < count; i++) {
        units[i] = (uint16_t)(r->main.bytes[2 * i] | r->main.bytes[2 * i + 1] << 8);
    }
    memset(bytes, BYTE_MARK, room);
    if (is_converted(line, dwg_cp1252_to_bytes(units, count, bytes, room), count, room, is_byte_mark, bytes)) {
        for (size_t i = 0; i < count; i++) {
            put_unit(line, bytes[i], 8);
        }
    }
    take_back(SLOT_UNITS, units);
    take_back(SLOT_BYTES, bytes);
}

void answer(const Request *r, Line *line) {
    const uint8_t *s = r->main.bytes;
    size_t n = r->main.length, at = r->start;
    line->length = 0;
    switch (r->kind) {
    case KIND_B: put_code(line, dwg_read_b(s, n, at)); break;
    case KIND_BB: put_code(line, dwg_read_bb(s, n, at)); break;
    case KIND_3B: put_code(line, dwg_read_3b(s, n, at)); break;
    case KIND_BS: put_signed(line, dwg_read_bs(s, n, at)); break;
    case KIND_BSU: put_code(line, dwg_read_bs_u(s, n, at)); break;
    case KIND_BL: put_signed(line, dwg_read_bl(s, n, at)); break;
    case KIND_BLU: put_code(line, dwg_read_bl_u(s, n, at)); break;
    case KIND_BD: put_double(line, dwg_read_bd_bits(s, n, at), dwg_read_bd(s, n, at)); break;
    case KIND_BLL: put_code(line, dwg_read_bll(s, n, at)); break;
    case KIND_RC: put_code(line, dwg_read_rc(s, n, at)); break;
    case KIND_RS: put_signed(line, dwg_read_rs(s, n, at)); break;
    case KIND_RL: put_code(line, dwg_read_rl(s, n, at)); break;
    case KIND_RD: put_double(line, dwg_read_rd_bits(s, n, at), dwg_read_rd(s, n, at)); break;
    case KIND_HANDLE: put_handle(line, dwg_read_handle(s, n, at)); break;
    case KIND_DD: put_dd(line, s, n, at, r->fallback); break;
    case KIND_TV: put_text_answer(line, dwg_read_tv(s, n, at, r->release), r); break;
    case KIND_STRING_TV: put_text_answer(line, dwg_read_string_tv(s, n, at, r->string_end), r); break;
    case KIND_PREFIX: put_prefix(line, r); break;
    case KIND_HATCH:
    case KIND_HATCHS: answer_hatch(r, line); break;
    case KIND_MOVE: answer_move(r, line); break;
    case KIND_CP1252: put_units(line, r); break;
    case KIND_UNCP1252: put_bytes(line, r); break;
    default: claim(false, "a request has a kind");
    }
}
