/* How a request lies in an input of the fuzzer: a fixed head, little-endian, then the main payload and the string payload. Of a move the main payload
 * is a hatch body, and the string payload is edits of what it reads as. Of a conversion it is the list, units with their low byte first. */
#ifndef INPUT_H
#define INPUT_H

#include <calls.h>

/* Offsets in the head. */
enum {
    AT_KIND = 0,          /* one byte, modulo KINDS */
    AT_RELEASE = 1,       /* one byte, modulo 9 */
    AT_PLACEMENT = 2,     /* one byte: bit 0 guards the payloads in front and not behind, bit 1 the lists; bit 2: lists are short by AT_SHORT */
    AT_START = 3,         /* two bytes; ffff is the largest number there is, here and in the next two */
    AT_STRING_START = 5,  /* two bytes */
    AT_STRING_END = 7,    /* two bytes */
    AT_SHORT = 9,         /* one byte: bits 0 and 1 for the words, 2 and 3 for the numbers: so many less than needed, and one more at 3; of a conversion
                           * signed, how many entries more than needed the output has, and none at -128 */
    AT_FALLBACK = 10,     /* eight bytes; of a conversion the first is what the output holds before */
    AT_STRING_BYTES = 18, /* two bytes: how many of the last bytes are the string payload */
    HEAD = 20
};

/* An edit: a byte, modulo EDITS, what it alters, and eight bytes, its number. */
enum {
    EDIT_ADD_WORD, EDIT_ADD_NUMBER, EDIT_DROP_WORD, EDIT_DROP_NUMBER, EDIT_AT, EDIT_WORD, EDIT_NUMBER, EDIT_ALL_NUMBERS, EDIT_PATHS, EDIT_LINES,
    EDIT_SEEDS, EDIT_WORDS_USED, EDIT_NUMBERS_USED, EDIT_COLORS, EDIT_SOLID, EDIT_ASSOCIATIVE, EDIT_DOUBLE, EDIT_EXTRUSION_X, EDIT_EXTRUSION_Y,
    EDIT_EXTRUSION_Z, EDIT_X, EDIT_Y, EDITS,
    EDIT = 9 /* bytes */
};

/* moves.c: the hatch that an input hands over, its request line, and its lists with every entry past the lengths used turned over. */
void given_of(const Request *request, Given *given);
void put_move(Line *line, const Given *given);
size_t turn_over_lists(Given *given);

/* conversions.c: the output's length by AT_SHORT, the request line, and the call once more with all that can be seen of it. */
bool is_conversion(const Request *request);
void set_room(Request *request, uint8_t more);
void put_conversion(Line *line, const Request *request);
void check_conversion(const Request *request, const Line *line, uint8_t held);

#endif
