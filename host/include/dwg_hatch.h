/* Hatch bodies of DWG drawings, proved: the C boundary of libdwg_hatch.a. This header brings the prefixes, the texts and the codes too.
 *
 * A body is measured, lists of the measured lengths are lent, and the body is read (host/examples/hatch.c does so and prints it):
 *
 *     DwgLengthsAnswer lengths = dwg_hatch_measure(payload, payload_length, start, release);
 *     if (lengths.refusal != DWG_READ) { ... lengths.refusal says why, lengths.place at which bit ... }
 *     ... numbers has room for lengths.numbers doubles, words for lengths.words ...
 *     DwgBodyAnswer body = dwg_hatch_decode(payload, payload_length, start, release, numbers, lengths.numbers, words, lengths.words);
 *
 * Releases are DWG_R14 to DWG_R2018. A text is where it lies; its characters, in a buffer that is lent:
 *
 *     char name[256];
 *     DwgTextFields at = body.fields.pattern_name;
 *     dwg_text_utf8(payload, payload_length, at.width, at.position, at.count, name, sizeof name);
 *
 * with the string payload in place of `payload` where at.source is DWG_SOURCE_STRING. Some offices pad a name with a closing zero unit: at.padded says
 * so, and the characters are the same with it and without. Before DWG_R2007 accented letters are bytes of the drawing's code page; where that is 1252:
 *
 *     dwg_text_utf8_in_page(DWG_CODE_PAGE_1252, payload, payload_length, at.width, at.position, at.count, name, sizeof name);
 *
 * What goes to the lists, in reading order; a point is its x and y, an angle is in radians, a switch is 0 or 1:
 *
 *     what            words                                                   numbers
 *     each path       flags (values of DwgPathFlag), then
 *       a polyline    bulges (a switch), closed (a switch), vertices          each vertex: point, and its bulge if there are bulges
 *       or edges      edges; then of each edge its kind (of DwgEdgeKind) and
 *         line        nothing more                                            start point, end point
 *         arc         counterclockwise (a switch)                             centre, radius, start angle, end angle
 *         ellipse     counterclockwise (a switch)                             centre, end of the major axis seen from the centre, minor axis
 *                                                                             by major axis, start angle, end angle
 *         spline      degree, rational (a switch), periodic (a switch),       the knots; each control point, and its weight if rational; if
 *                     knots, control points, fit points (0 before R2010)      there are fit points: these, then start tangent, end tangent
 *       last          boundary handles
 *     each pattern    dashes                                                  angle, origin, offset to the next line, the dashes' lengths
 *       line
 *     seed points                                                             each point: the last 2 * num_seed_points of numbers_used
 *
 * Coordinates far from 0 lose digits where a program narrows them. So what was read is moved, in the lists as they lie, to an origin near the job:
 *
 *     DwgMoveAnswer moved = dwg_hatch_move_origin(body, words, lengths.words, numbers, lengths.numbers, 4650000.0, 9230000.0);
 *     if (moved.refusal != DWG_READ) { ... the numbers are as they were ... }
 *
 * A bulge is the tangent of a quarter of the angle of the arc from this vertex to the next, positive counterclockwise. A path is a polyline
 * where its flags have DWG_PATH_POLYLINE. The comments of dwg_hatch_codes.h say what holds for every function: pointers, refusals, threads,
 * doubles.
 */
#ifndef DWG_HATCH_H
#define DWG_HATCH_H

#include "dwg_hatch_codes.h"
#include "dwg_hatch_prefix.h"
#include "dwg_hatch_texts.h"

#ifdef __cplusplus
extern "C" {
#endif

/* The flags of a path, a word of its own; a hatch with a path that has DWG_PATH_DERIVED has a pixel size. */
typedef enum DwgPathFlag {
    DWG_PATH_EXTERNAL = 1,  /* an outer boundary */
    DWG_PATH_POLYLINE = 2,  /* the path is a polyline and no list of edges */
    DWG_PATH_DERIVED = 4,   /* the path comes from a boundary object */
    DWG_PATH_TEXTBOX = 8,   /* the path is a text's box */
    DWG_PATH_OUTERMOST = 16 /* the outermost path */
} DwgPathFlag;

/* The kinds of an edge, a word of its own. */
typedef enum DwgEdgeKind {
    DWG_EDGE_LINE = 1,
    DWG_EDGE_ARC = 2,
    DWG_EDGE_ELLIPSE = 3,
    DWG_EDGE_SPLINE = 4
} DwgEdgeKind;

/* The most colours that a gradient has. */
#define DWG_GRADIENT_COLORS 16

/* A colour of a gradient. */
typedef struct DwgGradientColor {
    double unknown_double;
    int16_t unknown_short;
    uint32_t rgb;
    uint8_t ignored_color_byte;
} DwgGradientColor;

/* The same with the double as its 64 bits. */
typedef struct DwgGradientColorBits {
    uint64_t unknown_double;
    int16_t unknown_short;
    uint32_t rgb;
    uint8_t ignored_color_byte;
} DwgGradientColorBits;

/* Where a text lies and whether it is padded, as DwgTextAnswer has it; an absent gradient's name is not padded. */
typedef struct DwgTextFields {
    uint8_t source; /* a number of DwgSource */
    uint8_t width;
    bool padded; /* whether a closing zero unit was dropped; it is not counted */
    size_t position;
    size_t count;
} DwgTextFields;

/* The gradient of a hatch, or 0 for each where there is none; colours past their count are 0. The angle is in radians. */
typedef struct DwgGradientFields {
    bool present;
    double angle;
    double shift;
    uint32_t is_single_color;
    double tint;
    size_t num_colors;
    DwgGradientColor colors[DWG_GRADIENT_COLORS];
    DwgTextFields name;
} DwgGradientFields;

/* The same with each double as its 64 bits. */
typedef struct DwgGradientBits {
    bool present;
    uint64_t angle;
    uint64_t shift;
    uint32_t is_single_color;
    uint64_t tint;
    size_t num_colors;
    DwgGradientColorBits colors[DWG_GRADIENT_COLORS];
    DwgTextFields name;
} DwgGradientBits;

/* The fields of a hatch that are no doubles, the counts of what it holds, and the lengths used of both lists. */
typedef struct DwgBodyFields {
    DwgTextFields pattern_name;
    bool solid_fill;
    bool associative;
    bool pattern_double;
    uint16_t pattern_style;
    uint16_t pattern_type;
    size_t num_paths;
    size_t num_pattern_lines;
    size_t num_seed_points;
    size_t words_used;
    size_t numbers_used;
} DwgBodyFields;

/* What a hatch gives: the refusal's number or 0, the final place in each payload (without a string reader the second is 0), and the fields
 * or 0 for each. The pattern's angle is in radians; angle, scale and double are 0 where the hatch is solid, the pixel size where no path asks for
 * one. */
typedef struct DwgBodyAnswer {
    uint64_t refusal;
    size_t place;
    size_t string_place;
    DwgGradientFields gradient;
    double elevation;
    double extrusion_x;
    double extrusion_y;
    double extrusion_z;
    double pattern_angle;
    double pattern_scale;
    double pixel_size;
    DwgBodyFields fields;
} DwgBodyAnswer;

/* The same with each double as its 64 bits. */
typedef struct DwgBodyBitsAnswer {
    uint64_t refusal;
    size_t place;
    size_t string_place;
    DwgGradientBits gradient;
    uint64_t elevation;
    uint64_t extrusion_x;
    uint64_t extrusion_y;
    uint64_t extrusion_z;
    uint64_t pattern_angle;
    uint64_t pattern_scale;
    uint64_t pixel_size;
    DwgBodyFields fields;
} DwgBodyBitsAnswer;

/* What a measuring gives: the refusal's number or 0, the final place in each payload, and the lengths that the lists must have or 0. */
typedef struct DwgLengthsAnswer {
    uint64_t refusal;
    size_t place;
    size_t string_place;
    size_t words;
    size_t numbers;
} DwgLengthsAnswer;

/* A part of the list of numbers: its first index, and how many numbers it has. */
typedef struct DwgSeedPart {
    size_t begin;
    size_t count;
} DwgSeedPart;

/* What a move of the origin gives: the refusal's number or 0. It reads no bits, so both places are 0. */
typedef struct DwgMoveAnswer {
    uint64_t refusal;
    size_t place;
    size_t string_place;
} DwgMoveAnswer;

/* ---- measuring: nothing is lent but the payloads, and nothing is written */

/* The lengths that the lists must have for the hatch body at bit `start`, texts inline. Refused, in this order: DWG_UNKNOWN_RELEASE and
 * DWG_PAYLOAD_TOO_LONG (place: `start`), then DWG_TOO_FEW_BITS, DWG_RESERVED_TAG, DWG_COUNT_TOO_LARGE, DWG_EDGE_KIND and DWG_NOT_UTF16 as the
 * fields have it; never DWG_LIST_TOO_SHORT. Then string_place and both lengths are 0.
 *
 * Proved (crates/hatch/specs/Measuring.antt, `measures` and `never_short`): where measuring reads, a call that is lent lists of these lengths or
 * longer reads the same hatch with the same final places, and one that is lent a shorter list is refused, DWG_LIST_TOO_SHORT, at these places; where
 * measuring is refused, every such call is, with the same refusal and places. */
DwgLengthsAnswer dwg_hatch_measure(const uint8_t *main, size_t main_length, size_t start, uint64_t release);

/* The same with a string reader: the texts come from the string payload, at every release, from bit `string_start` on; the reader ends at
 * bit `string_end`, which may be any number. The two payloads may be the same bytes. Refused, in this order: DWG_UNKNOWN_RELEASE, then
 * DWG_PAYLOAD_TOO_LONG of the main and then of the string payload (places: the start bits); DWG_TOO_FEW_BITS if string_start is past that
 * payload (places: `start` and that payload's length in bits); then as without a reader, and DWG_TEXT_PAST_END, as the fields have it; never
 * DWG_LIST_TOO_SHORT. Then both lengths are 0.
 *
 * string_start is compared once with the payload's length, and is then where the reader stands: a start at the end of a large payload costs what one at bit
 * 0 does. Proved (crates/hatch_format/proofs/Starts.antt, `start_inside`, `start_past` and `same_past`): that the reader stands at every start within the
 * payload, its length in bits included, and that the refusal past it is the same for every payload of that length, whatever its bits are. */
DwgLengthsAnswer dwg_hatch_measure_with_strings(const uint8_t *main, size_t main_length, size_t start, const uint8_t *string,
                                                size_t string_length, size_t string_start, size_t string_end, uint64_t release);

/* ---- reading: two lists are lent. They are the caller's own arrays, lent as they lie: nothing is copied or converted, and the two must
 * lie apart from each other and from the payloads. The entries up to words_used and numbers_used are what was read; entries past them
 * keep every bit that they had. A list longer than needed is fine; one too short is refused, DWG_LIST_TOO_SHORT, after all other refusals. */

/* The hatch body at bit `start`, texts inline, doubles as double. The host's array of doubles `numbers` is lent as it lies, bit for bit:
 * an entry read has the payload's 64 bits (where these are a NaN's it is a NaN, of no promised pattern), and an entry not read keeps all
 * its 64 bits, also a NaN's. Refused as dwg_hatch_measure is, and last DWG_LIST_TOO_SHORT (place: where the body ends); then string_place and
 * every other field are 0, and both lists unchanged, bit for bit. */
DwgBodyAnswer dwg_hatch_decode(const uint8_t *main, size_t main_length, size_t start, uint64_t release, double *numbers,
                               size_t numbers_length, uint32_t *words, size_t words_length);

/* The same with each double as its 64 bits, NaNs too. A host's array of doubles is lent as it lies, bit for bit, as (uint64_t *)numbers: the
 * archive holds machine code, so no assumption of a C compiler about aliasing reaches into the call. On a refusal: as of
 * dwg_hatch_decode. */
DwgBodyBitsAnswer dwg_hatch_decode_bits(const uint8_t *main, size_t main_length, size_t start, uint64_t release, uint64_t *bits,
                                        size_t bits_length, uint32_t *words, size_t words_length);

/* The hatch body with a string reader, as dwg_hatch_measure_with_strings has it, doubles as double. The host's array of doubles is lent as
 * it lies, bit for bit, as of dwg_hatch_decode. Refused as dwg_hatch_measure_with_strings is, and last DWG_LIST_TOO_SHORT (places: where the
 * body ends); then every other field is 0, and both lists are unchanged, bit for bit. */
DwgBodyAnswer dwg_hatch_decode_with_strings(const uint8_t *main, size_t main_length, size_t start, const uint8_t *string,
                                            size_t string_length, size_t string_start, size_t string_end, uint64_t release,
                                            double *numbers, size_t numbers_length, uint32_t *words, size_t words_length);

/* The same with each double as its 64 bits, NaNs too. A host's array of doubles is lent as it lies, bit for bit, as (uint64_t *)numbers. On a
 * refusal: as of dwg_hatch_decode_with_strings. */
DwgBodyBitsAnswer dwg_hatch_decode_with_strings_bits(const uint8_t *main, size_t main_length, size_t start, const uint8_t *string,
                                                     size_t string_length, size_t string_start, size_t string_end, uint64_t release,
                                                     uint64_t *bits, size_t bits_length, uint32_t *words, size_t words_length);

/* ---- the seed points of a reading */

/* Where the seed points lie in the list of numbers, x and y of each: they are the last numbers used. It takes two fields of the answer and the
 * list's length, and refuses nothing: an empty part, begin 0 and count 0, where the list or the numbers used are too few for them. */
DwgSeedPart dwg_hatch_seed_points(size_t numbers_used, size_t num_seed_points, size_t length);

/* ---- the origin of a reading, moved */

/* Moves the origin of a hatch to (x, y), in place: each coordinate of the numbers used becomes coordinate minus origin, x by x and y by y, by one
 * subtraction of doubles. Coordinates are those of vertices, line ends, centres, control points, fit points, origins of pattern lines and seed
 * points. All other entries keep every bit: bulges, weights, knots, radii, ratios, angles, ends of major axes, tangents, offsets, dashes, and
 * what lies past numbers_used. (Where such an entry is a NaN, that its pattern stays is proved of the function over 64 bits below; of this one it is
 * proved that a NaN stays, and tested that its bits do.) `hatch` is a reading's answer as it was given, `words` and `numbers` are its lists, which may be longer than used;
 * doubles may be altered since, and whatever else was is looked at: nothing is asked of the fields of `hatch` or of the words.
 *
 * Refused, in this order: DWG_LIST_TOO_SHORT if record and lists do not fit each other (a count of the record or the words is above its cap, a
 * switch is neither 0 nor 1, an edge's kind is not 1 to 4, the counts do not come to exactly words_used and numbers_used, or a list is shorter than
 * these); DWG_OTHER_PLANE unless the extrusion is (0, 0, 1), -0.0 counting as 0; DWG_COORDINATE_OUT_OF_RANGE if x, y or a coordinate to be moved is
 * no number from -2^40 to 2^40. Then the numbers are unchanged, bit for bit.
 *
 * Where coordinate and origin are multiples of 1/1,048,576 within 2^30 of 0 the difference is exact; else it is within 1/8,192 of the exact one. */
DwgMoveAnswer dwg_hatch_move_origin(DwgBodyAnswer hatch, const uint32_t *words, size_t words_length, double *numbers, size_t numbers_length,
                                    double x, double y);

/* The same with each double as its 64 bits: those of the record, of the list and of the origin. */
DwgMoveAnswer dwg_hatch_move_origin_bits(DwgBodyBitsAnswer hatch, const uint32_t *words, size_t words_length, uint64_t *bits, size_t bits_length,
                                         uint64_t x, uint64_t y);

#ifdef __cplusplus
}
#endif

#endif
