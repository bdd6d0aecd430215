/* dwg_text_utf8 and dwg_text_utf8_in_page of dwg_hatch_texts.h: every character, units at every bit offset, halves of pairs, buffers of every size, texts
 * that do not lie in the payload, padded names, and every byte of code page 1252 as glibc's iconv has it. Payloads are of exactly the bytes that they need, so
 * that a read past them is seen by gcc's sanitizers. */
#include "calls.h"

#include <iconv.h>
#include <stdio.h>
#include <stdlib.h>
#include <string.h>

#define MOST 16
#define GUARD 0x5a

/* A payload with units of a width from a bit on; the bits before and behind are ones. */
static uint8_t *laid(const uint32_t *units, size_t count, uint8_t width, size_t position, size_t *length) {
    *length = (position + count * width + 7) / 8;
    uint8_t *payload = malloc(*length == 0 ? 1 : *length);
    claim(payload != NULL, "there is memory for a payload");
    memset(payload, 0xff, *length);
    for (size_t i = 0; i < count; i++) {
        uint32_t low_first = width == 8 ? units[i] : (units[i] & 255) << 8 | units[i] >> 8;
        for (size_t bit = 0; bit < width; bit++) {
            size_t at = position + i * width + bit;
            uint8_t mask = (uint8_t)(0x80 >> at % 8);
            payload[at / 8] = (uint8_t)(low_first >> (width - 1 - bit) & 1 ? payload[at / 8] | mask : payload[at / 8] & ~mask);
        }
    }
    return payload;
}

/* How many bytes of `text` are whole characters and leave room for a closing zero in `size`. */
static size_t whole(const char *text, size_t length, size_t size) {
    size_t at = length < size ? length : size - 1;
    while (at > 0 && at < length && ((unsigned char)text[at] & 0xc0) == 0x80) {
        at--;
    }
    return at;
}

/* The units are these characters in a code page, at every bit offset and in buffers of every size. */
static void gives_in(DwgCodePage page, const uint32_t *units, size_t count, uint8_t width, const char *text, size_t length) {
    for (size_t position = 0; position < 17; position++) {
        size_t bytes;
        uint8_t *payload = laid(units, count, width, position, &bytes);
        for (size_t size = 0; size <= length + 2; size++) {
            char buffer[4 * MOST + 4];
            memset(buffer, GUARD, sizeof buffer);
            size_t given = dwg_text_utf8_in_page(page, payload, bytes, width, position, count, size == 0 ? NULL : buffer, size);
            claim(given == length, "the whole text's length is given");
            size_t kept = size == 0 ? 0 : whole(text, length, size);
            claim(memcmp(buffer, text, kept) == 0, "whole characters are written as far as they fit");
            claim(size == 0 || buffer[kept] == 0, "a closing zero is written");
            for (size_t i = size == 0 ? 0 : kept + 1; i < sizeof buffer; i++) {
                claim(buffer[i] == GUARD, "nothing is written behind the closing zero");
            }
        }
        free(payload);
    }
}

/* The same where no code page is known, by the function that takes none too. */
static void gives(const uint32_t *units, size_t count, uint8_t width, const char *text, size_t length) {
    size_t bytes;
    char buffer[4 * MOST + 4];
    uint8_t *payload = laid(units, count, width, 3, &bytes);
    claim(dwg_text_utf8(payload, bytes, width, 3, count, buffer, sizeof buffer) == length, "the page that is not known is the one that is left out");
    claim(memcmp(buffer, text, length) == 0 && buffer[length] == 0, "and so are its characters");
    free(payload);
    gives_in(DWG_CODE_PAGE_UNKNOWN, units, count, width, text, length);
}

/* Every byte of code page 1252 alone, as glibc's iconv has it; what it does not convert is U+FFFD. Says how many are defined, or that there is no iconv. */
static int every_byte(void) {
    iconv_t converter = iconv_open("UTF-8", "CP1252");
    int defined = 0;
    if (converter == (iconv_t)-1) {
        return -1;
    }
    for (uint32_t byte = 0; byte < 256; byte++) {
        char from[1] = {(char)byte}, to[4], *input = from, *output = to;
        size_t left = sizeof from, room = sizeof to;
        iconv(converter, NULL, NULL, NULL, NULL);
        bool known = iconv(converter, &input, &left, &output, &room) == 0;
        defined += known;
        gives_in(DWG_CODE_PAGE_1252, &byte, 1, 8, known ? to : "\xef\xbf\xbd", known ? sizeof to - room : 3);
        uint32_t wide = 0x400 + byte; /* the page is for 8-bit units alone */
        gives_in(DWG_CODE_PAGE_1252, &wide, 1, 16, (char[]){(char)(0xd0 | byte >> 6), (char)(0x80 | (byte & 63))}, 2);
    }
    iconv_close(converter);
    return defined;
}

/* Every character, as one unit or as a pair, by a strict reading of its UTF-8. */
static void every_character(void) {
    for (uint32_t character = 0; character < 0x110000; character++) {
        if (character >= 0xd800 && character < 0xe000) {
            continue;
        }
        uint32_t over = character - 0x10000, pair[2] = {0xd800 + (over >> 10), 0xdc00 + (over & 0x3ff)};
        bool one = character < 0x10000;
        size_t bytes;
        uint8_t *payload = laid(one ? &character : pair, one ? 1 : 2, 16, character % 8, &bytes);
        unsigned char given[8] = {0};
        size_t length = dwg_text_utf8(payload, bytes, 16, character % 8, one ? 1 : 2, (char *)given, sizeof given);
        static const uint32_t least[] = {0, 0, 0x80, 0x800, 0x10000};
        static const unsigned char tag[] = {0, 0, 0xc0, 0xe0, 0xf0};
        uint32_t value = length == 1 ? given[0] : given[0] & (0xffu >> (length + 1));
        for (size_t i = 1; i < length; i++) {
            claim((given[i] & 0xc0) == 0x80, "the bytes behind the first have the tag 10");
            value = value << 6 | (given[i] & 0x3f);
        }
        claim(length >= 1 && length <= 4 && value == character && value >= least[length], "every character is given by its shortest UTF-8");
        claim(length == 1 ? given[0] < 0x80 : (given[0] & (0xff80u >> length & 0xff)) == tag[length], "the first byte has the length's tag");
        free(payload);
    }
}

/* Texts that do not lie in the payload, and empty ones. */
static void elsewhere(void) {
    static const uint8_t payload[] = {0x41, 0x00};
    static const struct { size_t width, position, count, wanted; } cases[] = {
        {8, 9, 1, SIZE_MAX}, {8, 0, 3, SIZE_MAX}, {16, 1, 1, SIZE_MAX}, {16, 17, 1, SIZE_MAX}, {16, SIZE_MAX, 1, SIZE_MAX}, {16, 0, SIZE_MAX, SIZE_MAX},
        {8, 16, SIZE_MAX, SIZE_MAX}, {0, 0, 1, SIZE_MAX}, {7, 0, 1, SIZE_MAX}, {32, 0, 1, SIZE_MAX}, {0, 0, 0, 0}, {16, SIZE_MAX, 0, 0}, {7, 99, 0, 0},
        {16, 0, 1, 1}, {8, 8, 1, 1},
    };
    for (size_t i = 0; i < sizeof cases / sizeof *cases; i++) {
        char buffer[4] = {GUARD, GUARD, GUARD, GUARD};
        size_t given = dwg_text_utf8(payload, sizeof payload, (uint8_t)cases[i].width, cases[i].position, cases[i].count, buffer, sizeof buffer);
        claim(given == cases[i].wanted, "a text elsewhere is told, and an empty one lies anywhere");
        claim(given == 1 || buffer[0] == 0, "it has no characters");
    }
    claim(dwg_text_utf8(payload, SIZE_MAX, 8, 0, 1, NULL, 0) == 1, "a length above a size_t's bits is no trouble");
}

/* The characters of the text at bit 0 of a payload, and how many bytes they have; whether the text is padded is looked at. */
static size_t characters_of(const uint8_t *payload, size_t length, uint64_t release, bool padded, char bytes[8]) {
    DwgTextAnswer text = dwg_read_tv(payload, length, 0, release);
    claim(text.refusal == DWG_READ && text.padded == padded, "a text says whether a closing zero was dropped");
    return dwg_text_utf8(payload, length, text.width, text.position, text.count, bytes, 8);
}

/* A padded name and the same name without its zero give the same bytes, in units of 8 and of 16 bits; a second closing zero makes another name. */
static void padded_names(void) {
    static const uint8_t plain[] = {0x40, 0xd3, 0x91, 0x55, 0x00}, padded[] = {0x41, 0x13, 0x91, 0x55, 0x00, 0x00};
    static const uint8_t twice[] = {0x41, 0x53, 0x91, 0x55, 0x00, 0x00, 0x00}, zero[] = {0x40, 0x40, 0x00};
    static const uint8_t wide[] = {0x41, 0x13, 0x80, 0x11, 0x40, 0x15, 0x00, 0x00, 0x00, 0x00};
    char bytes[8];
    claim(characters_of(plain, sizeof plain, DWG_R2000, false, bytes) == 3 && memcmp(bytes, "NET", 4) == 0, "NET is NET");
    claim(characters_of(padded, sizeof padded, DWG_R2000, true, bytes) == 3 && memcmp(bytes, "NET", 4) == 0, "NET with a closing zero is NET");
    claim(characters_of(wide, sizeof wide, DWG_R2007, true, bytes) == 3 && memcmp(bytes, "NET", 4) == 0, "so it is in units of 16 bits");
    claim(characters_of(twice, sizeof twice, DWG_R2000, true, bytes) == 4 && memcmp(bytes, "NET\0", 5) == 0, "NET with two closing zeros has one");
    claim(characters_of(zero, sizeof zero, DWG_R2000, true, bytes) == 0 && bytes[0] == 0, "a zero alone is an empty name");
}

int main(void) {
    gives((uint32_t[]){'S', 'O', 'L', 'I', 'D'}, 5, 8, "SOLID", 5);
    gives((uint32_t[]){0x7f, 0x80, 0xff, 'a'}, 4, 8, "\x7f\xef\xbf\xbd\xef\xbf\xbd" "a", 8);
    gives((uint32_t[]){'A', 0xe9, 0x20ac, 0xd83d, 0xde00, 'B'}, 6, 16, "A\xc3\xa9\xe2\x82\xac\xf0\x9f\x98\x80" "B", 11);
    gives((uint32_t[]){'A', 0, 'B'}, 3, 16, "A\0B", 3);
    gives((uint32_t[]){0xd800}, 1, 16, "\xef\xbf\xbd", 3);
    gives((uint32_t[]){0xdc00, 0xd800, 'A'}, 3, 16, "\xef\xbf\xbd\xef\xbf\xbd" "A", 7);
    gives((uint32_t[]){0xdc00, 0xdc01}, 2, 16, "\xef\xbf\xbd\xef\xbf\xbd", 6);
    gives((uint32_t[]){0xd800, 0xdbff, 0xdfff, 0xdc00}, 4, 16, "\xef\xbf\xbd\xf4\x8f\xbf\xbf\xef\xbf\xbd", 10);
    gives(NULL, 0, 16, "", 0);
    gives_in(DWG_CODE_PAGE_1252, (uint32_t[]){'K', 0xfc, 'c', 'h', 'e'}, 5, 8, "K\xc3\xbc" "che", 6);
    gives_in(DWG_CODE_PAGE_1252, (uint32_t[]){0x80, ' ', '5', 0x81, 0x9d, 0}, 6, 8, "\xe2\x82\xac 5\xef\xbf\xbd\xef\xbf\xbd\0", 12);
    gives_in((DwgCodePage)1251, (uint32_t[]){0xe9, 'a'}, 2, 8, "\xef\xbf\xbd" "a", 4);
    every_character();
    elsewhere();
    padded_names();
    int defined = every_byte();
    claim(defined == 251 || defined == -1, "of 256 bytes 251 stand for a character");
    puts(defined == -1 ? "utf8: code page 1252 is NOT COMPARED, since glibc's iconv has none here" : "utf8: code page 1252 is as glibc's iconv has it");
    puts("utf8: every character, units at every bit offset, halves of pairs, buffers of every size and padded names are as the header says");
    return 0;
}
