/* Holvreiz: the least DFS code of a wiring drawing, the catalogue of the patterns that recur in a survey of drawings, the check of a list
 * that was made elsewhere, and the book of all small patterns.
 *
 * The functions are proved: each answers any bytes of any length with what its contract says (crates/holvreiz/src), reads
 * nothing outside the bytes that it is given and writes nothing outside the lent output. Link target/staticlib/libholvreiz.a,
 * which `tests/build` writes, into an x86-64 Linux program. There is no state: calls from several threads don't
 * disturb each other.
 *
 * WHAT A CALLER OWES, for each pointer with its length:
 *   - it points to that many bytes, and is not null, even where the length is 0;
 *   - the lent output does not overlap an input. (Inputs may overlap each other.)
 *
 * WHAT A CALL RETURNS is one number, (drawing * 256 + refusal) * 2^32 + count. holvreiz_refusal, holvreiz_count and
 * holvreiz_drawing take it apart. A refusal of 0 is an answer. A refused call has count 0 and writes nothing; only
 * HOLVREIZ_OUTPUT_LENGTH of a catalogue or a book leaves the whole lent output zero. Lent bytes past an answer keep their content.
 * No count reaches 2^32: a catalogue has at most 8,446,368 entries.
 *
 * STACK: holvreiz_catalogue, holvreiz_check_list, holvreiz_check_usual and holvreiz_check_four need about 1.74 MB; the others, holvreiz_book
 * among them, need less than 32 KB. A main thread has 8 MB as a rule; a thread that calls one of the four should have 4 MB
 * (pthread_attr_setstacksize). There is no heap.
 */
#ifndef HOLVREIZ_H
#define HOLVREIZ_H

#include <stddef.h>
#include <stdint.h>

#ifdef __cplusplus
extern "C" {
#endif

/* SIZES
 * A drawing is one record of 73 bytes: n (1 to 10), m (0 where n is 1, else 1 to 20), ten device kinds, twenty cables of three
 * bytes (one end, other end, cable kind), the number of the crane that it is a sheet of. Devices count from 0, kinds and crane are 0 to 255,
 * unused bytes are zero. Codes, matching and sameness do not look at the crane.
 * A survey is 1 to 32 drawings one after another; several may be sheets of one crane.
 * A code is 1 to 20 records of 5 bytes: i, j, kind of i, cable kind, kind of j. That of a lone device of kind k is the one
 * record 0, 0, k, 0, k.
 * An entry of a catalogue or a book is 43 bytes: number of cables, support, the records of the least code, zeros up to 8 records, example.
 * The support in a catalogue is the number of different cranes among the drawings that contain the pattern; in a book it is 0.
 * The example in a catalogue is the lowest number of a drawing that contains the pattern, 0 to 31, and no number of a crane; in a book it is 0.
 * A list is any bytes that may be the entries of a catalogue, one behind another. */
#define HOLVREIZ_DRAWING_BYTES 73
#define HOLVREIZ_CRANE_AT 72 /* the place of a drawing's crane */
#define HOLVREIZ_SURVEY_DRAWINGS 32
#define HOLVREIZ_RECORD_BYTES 5
#define HOLVREIZ_CODE_BYTES 100 /* the longest code */
#define HOLVREIZ_MAP_BYTES 10   /* the longest map */
#define HOLVREIZ_ENTRY_BYTES 43
#define HOLVREIZ_EXAMPLE_AT 42 /* the place of an entry's example */

/* REFUSALS. Places are checked from the top, as far as a call has them, and the first that applies is returned; of two
 * drawings or codes the first is checked fully before the second. A call's settings, 12 and 13, 16 and 17, come before all else; the length of
 * a list, 18, comes after the survey. */
enum holvreiz_reason {
    HOLVREIZ_ANSWERED = 0,
    HOLVREIZ_DRAWING_LENGTH = 1,  /* a drawing is not 73 bytes long, or a survey no multiple of 73 */
    HOLVREIZ_DEVICE_COUNT = 2,    /* n is not 1 to 10 */
    HOLVREIZ_CABLE_COUNT = 3,     /* m is not 0 where n is 1, or not 1 to 20 where n is more */
    HOLVREIZ_CABLE_END = 4,       /* an end is not below n */
    HOLVREIZ_CABLE_LOOP = 5,      /* both ends are equal */
    HOLVREIZ_CABLE_PAIR = 6,      /* an earlier cable joins the pair */
    HOLVREIZ_UNUSED_BYTE = 7,     /* an unused byte is not zero; the crane is never unused */
    HOLVREIZ_NOT_CONNECTED = 8,   /* cables don't lead from each device to every other */
    HOLVREIZ_CODE_LENGTH = 9,     /* a code has no byte, over 100, or no multiple of 5 */
    HOLVREIZ_STEP = 10,           /* a record is not a permitted step; 0, 0 is one alone only, with cable kind 0 */
    HOLVREIZ_KIND = 11,           /* a kind differs from the first one given to its device */
    HOLVREIZ_THRESHOLD = 12,      /* the threshold is not 1 to 32 */
    HOLVREIZ_SIZE_LIMIT = 13,     /* the size limit is not 1 to 8 */
    HOLVREIZ_SURVEY_LENGTH = 14,  /* a survey has no drawing, or over 32 */
    HOLVREIZ_OUTPUT_LENGTH = 15,  /* the lent output is too short for the whole answer */
    HOLVREIZ_KIND_COUNT = 16,     /* the kinds of devices or of cables of a book are not 1 to 3 */
    HOLVREIZ_BOOK_LIMIT = 17,     /* the size limit of a book is not 1 to 3 */
    HOLVREIZ_LIST_LENGTH = 18     /* the length of a list is no multiple of 43 */
};

/* What a call returned, taken apart. The drawing at fault counts from 0; it is told of refusals 2 to 8 of a catalogue or of the check of a list. */
static inline uint32_t holvreiz_refusal(uint64_t returned) {
    return (uint32_t)(returned >> 32) & 255;
}

static inline uint32_t holvreiz_count(uint64_t returned) {
    return (uint32_t)returned;
}

static inline uint32_t holvreiz_drawing(uint64_t returned) {
    return (uint32_t)(returned >> 40);
}

/* The count of holvreiz_compare and holvreiz_is_least, taken apart: 256 * agreement + order or verdict. The agreement of two codes is the number of
 * whole records before the first on which they part: the number of all records of equal codes, and of a code that begins a longer one that of its
 * own. Lone devices agree in their one record or in none. */
static inline uint32_t holvreiz_agreement(uint64_t returned) {
    return holvreiz_count(returned) / 256;
}

/* Of holvreiz_compare: 0 equal, 1 before, 2 after. */
static inline uint32_t holvreiz_order(uint64_t returned) {
    return holvreiz_count(returned) % 256;
}

/* Of holvreiz_is_least: 1 yes, 0 no. */
static inline uint32_t holvreiz_verdict(uint64_t returned) {
    return holvreiz_count(returned) % 256;
}

/* Writes the least code of a drawing: 5 bytes for each cable, and 5 for a lone device. Two drawings get equal codes exactly when
 * some renumbering of devices makes one the other. Count: bytes written. */
uint64_t holvreiz_code(const uint8_t *drawing, size_t drawing_length, uint8_t *output, size_t output_length);

/* Writes the drawing that a code describes, with devices numbered as in the code and cables in the order of its records; its crane is 0.
 * Needs 73 bytes of output. Count: bytes written. */
uint64_t holvreiz_decode(const uint8_t *code, size_t code_length, uint8_t *output, size_t output_length);

/* Whether a code is the least of the drawing that it describes, and how far it agrees with the least: in all its records exactly if it is that.
 * Count: 256 * agreement + (1 yes, 0 no). */
uint64_t holvreiz_is_least(const uint8_t *code, size_t code_length);

/* Where the first of two codes comes: lone devices before all others, by kind; and how far the two agree. Count: 256 * agreement + (0 equal, 1 before
 * the second, 2 after it). */
uint64_t holvreiz_compare(const uint8_t *first, size_t first_length, const uint8_t *second, size_t second_length);

/* Writes the least map of a pattern into a drawing: for each device of the pattern, in order, the device that it is sent to.
 * Needs a byte of output for each device of the pattern. Count: devices of the pattern, 0 where it is not contained. */
uint64_t holvreiz_match(const uint8_t *pattern, size_t pattern_length, const uint8_t *drawing, size_t drawing_length,
                        uint8_t *output, size_t output_length);

/* Whether two drawings are the same, however their devices are numbered and their cables ordered, and whatever their cranes are. Count: 1 yes,
 * 0 no. */
uint64_t holvreiz_same(const uint8_t *first, size_t first_length, const uint8_t *second, size_t second_length);

/* Writes the catalogue of a survey: an entry for each pattern of 1 to `limit` cables (1 to 8) that drawings of at least `threshold`
 * different cranes (1 to 32) contain, codes rising. Sheets of one crane count once. Needs 43 bytes of output for each entry; how many there are
 * the call alone can tell: after HOLVREIZ_OUTPUT_LENGTH lend more and call again. The program `catalogue` lends 67,080 bytes, 1,560 entries.
 * Count: entries. */
uint64_t holvreiz_catalogue(const uint8_t *survey, size_t survey_length, uint32_t threshold, uint32_t limit,
                            uint8_t *output, size_t output_length);

/* Whether a list is the catalogue of a survey, byte for byte: the entries that holvreiz_catalogue writes with this threshold and this limit, one
 * behind another, and nothing else. An incomplete list is not, and neither is one with another example; a list of no byte is where nothing is
 * frequent. Its bytes are only compared, so that it may hold anything and be longer than any catalogue. Refused as a catalogue is, without
 * HOLVREIZ_OUTPUT_LENGTH; then for its length. No output is lent. Count: 1 yes, 0 no. */
uint64_t holvreiz_check_list(const uint8_t *survey, size_t survey_length, uint32_t threshold, uint32_t limit,
                             const uint8_t *list, size_t list_length);

/* The same of the usual catalogue: threshold 2, limit 6. Count: 1 yes, 0 no. */
uint64_t holvreiz_check_usual(const uint8_t *survey, size_t survey_length, const uint8_t *list, size_t list_length);

/* The same of the catalogue that was usual before: threshold 2, limit 4. Its entries have an example too: a list from before they had one has to be
 * made again. Count: 1 yes, 0 no. */
uint64_t holvreiz_check_four(const uint8_t *survey, size_t survey_length, const uint8_t *list, size_t list_length);

/* Writes the book of all small patterns: an entry with support 0 and example 0 for each connected pattern of 1 to `limit` cables (1 to 3) with
 * device kinds below `a` and cable kinds below `b` (1 to 3 each), codes rising. Needs 43 bytes of output for each entry; docs/BOOK.md has their
 * numbers, and 83,721 bytes do for every book. `a` and `b` are checked first, then `limit`, then the output. Count: entries. */
uint64_t holvreiz_book(uint32_t a, uint32_t b, uint32_t limit, uint8_t *output, size_t length);

#ifdef __cplusplus
}
#endif

#endif
