/* Every call from C: an answer and a refusal of each, every byte of the lent output, and the number taken apart by the header.
 * Prints nothing and returns 0 where all is as the paper says. Builds as C99 and as C++. */
#include <stdio.h>
#include <string.h>

#include "holvreiz.h"

static int failures = 0;

static void expect(int holds, int line) {
    if (!holds) {
        printf("tests/c/calls.c:%d: not as expected\n", line);
        failures++;
    }
}

#define EXPECT(condition) expect((condition) ? 1 : 0, __LINE__)

/* Whether the number has this refusal, count and drawing. */
static int is(uint64_t returned, uint32_t refusal, uint32_t count, uint32_t drawing) {
    return holvreiz_refusal(returned) == refusal && holvreiz_count(returned) == count && holvreiz_drawing(returned) == drawing;
}

/* Whether `count` bytes have this value. */
static int all(const uint8_t *bytes, size_t count, uint8_t value) {
    for (size_t at = 0; at < count; at++) {
        if (bytes[at] != value) {
            return 0;
        }
    }
    return 1;
}

enum { LENT = 200, MARK = 170, DRAWING = HOLVREIZ_DRAWING_BYTES, CRANE_AT = HOLVREIZ_CRANE_AT };
enum { ENTRY = HOLVREIZ_ENTRY_BYTES, EXAMPLE_AT = HOLVREIZ_EXAMPLE_AT };

static uint8_t output[LENT];

static void lend(void) { memset(output, MARK, LENT); }

/* A path of three devices (D3), a triangle (D4), of kind 1 and cable 5; D3 without its second cable, which leaves a device apart. All are of
 * crane 0. */
static const uint8_t path[DRAWING] = {3, 2, 1, 1, 1, 0, 0, 0, 0, 0, 0, 0, 0, 1, 5, 1, 2, 5};
static const uint8_t triangle[DRAWING] = {3, 3, 1, 1, 1, 0, 0, 0, 0, 0, 0, 0, 0, 1, 5, 1, 2, 5, 2, 0, 5};
static const uint8_t apart[DRAWING] = {3, 1, 1, 1, 1, 0, 0, 0, 0, 0, 0, 0, 0, 1, 5};
static const uint8_t path_code[10] = {0, 1, 1, 5, 1, 1, 2, 1, 5, 1};
static const uint8_t fork_code[10] = {0, 1, 1, 5, 1, 0, 2, 1, 5, 1};
static const uint8_t no_code[10] = {0, 1, 1, 5, 1, 1, 0, 1, 5, 1};

static void codes(void) {
    lend();
    EXPECT(is(holvreiz_code(path, DRAWING, output, LENT), HOLVREIZ_ANSWERED, 10, 0));
    EXPECT(memcmp(output, path_code, 10) == 0 && all(output + 10, LENT - 10, MARK));
    lend();
    EXPECT(is(holvreiz_code(path, DRAWING, output, 9), HOLVREIZ_OUTPUT_LENGTH, 0, 0) && all(output, LENT, MARK));
    EXPECT(is(holvreiz_code(path, DRAWING - 1, output, LENT), HOLVREIZ_DRAWING_LENGTH, 0, 0) && all(output, LENT, MARK));
    EXPECT(is(holvreiz_code(apart, DRAWING, output, LENT), HOLVREIZ_NOT_CONNECTED, 0, 0) && all(output, LENT, MARK));

    EXPECT(is(holvreiz_decode(path_code, 10, output, LENT), HOLVREIZ_ANSWERED, DRAWING, 0));
    EXPECT(memcmp(output, path, DRAWING) == 0 && all(output + DRAWING, LENT - DRAWING, MARK));
    lend();
    EXPECT(is(holvreiz_decode(path_code, 10, output, DRAWING - 1), HOLVREIZ_OUTPUT_LENGTH, 0, 0) && all(output, LENT, MARK));
    EXPECT(is(holvreiz_decode(no_code, 10, output, LENT), HOLVREIZ_STEP, 0, 0) && all(output, LENT, MARK));

    EXPECT(is(holvreiz_is_least(path_code, 10), HOLVREIZ_ANSWERED, 256 * 2 + 1, 0));
    EXPECT(is(holvreiz_is_least(fork_code, 10), HOLVREIZ_ANSWERED, 256 * 1 + 0, 0));
    EXPECT(is(holvreiz_is_least(path_code, 9), HOLVREIZ_CODE_LENGTH, 0, 0));
    EXPECT(is(holvreiz_is_least(no_code, 10), HOLVREIZ_STEP, 0, 0));

    EXPECT(is(holvreiz_compare(path_code, 10, path_code, 10), HOLVREIZ_ANSWERED, 256 * 2 + 0, 0));
    EXPECT(is(holvreiz_compare(path_code, 10, fork_code, 10), HOLVREIZ_ANSWERED, 256 * 1 + 1, 0));
    EXPECT(is(holvreiz_compare(path_code, 10, path_code, 5), HOLVREIZ_ANSWERED, 256 * 1 + 2, 0));
    EXPECT(is(holvreiz_compare(no_code, 10, path_code, 9), HOLVREIZ_STEP, 0, 0));
    EXPECT(is(holvreiz_compare(path_code, 10, no_code, 10), HOLVREIZ_STEP, 0, 0));
    EXPECT(is(holvreiz_compare(path_code, 10, path_code, 9), HOLVREIZ_CODE_LENGTH, 0, 0));
}

/* Whether two codes are in this order, seen from either, and agree in so many records; and each with itself in all its own. */
static int before(const uint8_t *first, size_t first_length, const uint8_t *second, size_t second_length, uint32_t agreement) {
    uint64_t along = holvreiz_compare(first, first_length, second, second_length);
    uint64_t against = holvreiz_compare(second, second_length, first, first_length);
    return is(along, HOLVREIZ_ANSWERED, 256 * agreement + 1, 0) && holvreiz_order(along) == 1 && holvreiz_agreement(along) == agreement
        && is(against, HOLVREIZ_ANSWERED, 256 * agreement + 2, 0) && holvreiz_order(against) == 2 && holvreiz_agreement(against) == agreement
        && is(holvreiz_compare(first, first_length, first, first_length), HOLVREIZ_ANSWERED, 256 * (uint32_t)(first_length / 5), 0)
        && is(holvreiz_compare(second, second_length, second, second_length), HOLVREIZ_ANSWERED, 256 * (uint32_t)(second_length / 5), 0);
}

/* Whether the least test has this verdict and agreement. */
static int tested(const uint8_t *code, size_t length, uint32_t verdict, uint32_t agreement) {
    uint64_t returned = holvreiz_is_least(code, length);
    return is(returned, HOLVREIZ_ANSWERED, 256 * agreement + verdict, 0) && holvreiz_verdict(returned) == verdict
        && holvreiz_agreement(returned) == agreement;
}

/* A record of kind 1 and cable 5 throughout; gives the place behind it. */
static uint8_t *put_plain(uint8_t *at, uint8_t i, uint8_t j) {
    const uint8_t record[HOLVREIZ_RECORD_BYTES] = {i, j, 1, 5, 1};
    memcpy(at, record, sizeof record);
    return at + sizeof record;
}

/* Seven devices, each joined with each but for one pair, in the order of their numbers: twenty records. */
static void fill_clique(uint8_t *at, uint8_t without_i, uint8_t without_j) {
    for (uint8_t i = 1; i < 7; i++) {
        at = put_plain(at, i - 1, i);
        for (uint8_t j = 0; j + 1 < i; j++) {
            if (i != without_i || j != without_j) {
                at = put_plain(at, i, j);
            }
        }
    }
}

/* Codes that part at the first record, at a later one, at the last of twenty, or that begin one another; codes that are not the least, with as many
 * records of it as none, some and all but the last. */
static void agreements(void) {
    static const uint8_t triangle_code[15] = {0, 1, 1, 5, 1, 1, 2, 1, 5, 1, 2, 0, 1, 5, 1};
    static const uint8_t other_kinds[5] = {0, 1, 1, 7, 2}, turned[5] = {0, 1, 2, 7, 1};
    static const uint8_t tail_at_0[20] = {0, 1, 1, 5, 1, 1, 2, 1, 5, 1, 2, 0, 1, 5, 1, 0, 3, 1, 5, 1};
    /* Of a triangle with two tails: of the codes from the same start the least parts after four records, the least of all after two. */
    static const uint8_t from_a_tail[25] = {0, 1, 1, 5, 1, 1, 2, 1, 5, 1, 2, 3, 1, 5, 1, 3, 1, 1, 5, 1, 2, 4, 1, 5, 1};
    uint8_t least[HOLVREIZ_CODE_BYTES], early[HOLVREIZ_CODE_BYTES], last[HOLVREIZ_CODE_BYTES];
    fill_clique(least, 6, 4);
    fill_clique(early, 3, 1);
    fill_clique(last, 6, 3);

    EXPECT(before(path_code, 10, fork_code, 10, 1));
    EXPECT(before(path_code, 10, other_kinds, 5, 0));
    EXPECT(before(path_code, 5, path_code, 10, 1));
    EXPECT(before(path_code, 10, triangle_code, 15, 2));
    EXPECT(before(triangle_code, 15, fork_code, 10, 1));
    EXPECT(before(least, 100, last, 100, 19));
    EXPECT(before(least, 95, least, 100, 19));
    EXPECT(before(least, 100, early, 100, 5));

    EXPECT(tested(other_kinds, 5, 1, 1));
    EXPECT(tested(turned, 5, 0, 0));
    EXPECT(tested(triangle_code, 15, 1, 3));
    EXPECT(tested(tail_at_0, 20, 0, 3));
    EXPECT(tested(from_a_tail, 25, 0, 2));
    EXPECT(tested(least, 100, 1, 20));
    EXPECT(tested(early, 100, 0, 5));
    EXPECT(tested(last, 100, 0, 19));
}

static void maps(void) {
    static const uint8_t map[3] = {0, 1, 2};

    lend();
    EXPECT(is(holvreiz_match(path, DRAWING, triangle, DRAWING, output, LENT), HOLVREIZ_ANSWERED, 3, 0));
    EXPECT(memcmp(output, map, 3) == 0 && all(output + 3, LENT - 3, MARK));
    lend();
    EXPECT(is(holvreiz_match(triangle, DRAWING, path, DRAWING, output, LENT), HOLVREIZ_ANSWERED, 0, 0) && all(output, LENT, MARK));
    EXPECT(is(holvreiz_match(path, DRAWING, triangle, DRAWING, output, 2), HOLVREIZ_OUTPUT_LENGTH, 0, 0) && all(output, LENT, MARK));
    EXPECT(is(holvreiz_match(path, DRAWING, apart, DRAWING, output, LENT), HOLVREIZ_NOT_CONNECTED, 0, 0) && all(output, LENT, MARK));

    EXPECT(is(holvreiz_same(path, DRAWING, path, DRAWING), HOLVREIZ_ANSWERED, 1, 0));
    EXPECT(is(holvreiz_same(path, DRAWING, triangle, DRAWING), HOLVREIZ_ANSWERED, 0, 0));
    EXPECT(is(holvreiz_same(path, 0, triangle, DRAWING), HOLVREIZ_DRAWING_LENGTH, 0, 0));
}

/* The path on crane 0 and the triangle on crane 1; behind them the drawing that leaves a device apart. */
static void fill_survey(uint8_t *survey) {
    memcpy(survey, path, DRAWING);
    memcpy(survey + DRAWING, triangle, DRAWING);
    memcpy(survey + 2 * DRAWING, apart, DRAWING);
    survey[DRAWING + CRANE_AT] = 1;
}

static void catalogues(void) {
    uint8_t survey[3 * DRAWING];
    fill_survey(survey);

    lend();
    EXPECT(is(holvreiz_catalogue(survey, 2 * DRAWING, 1, 4, output, LENT), HOLVREIZ_ANSWERED, 3, 0));
    EXPECT(output[0] == 1 && output[1] == 2 && output[43] == 2 && output[44] == 2 && output[86] == 3 && output[87] == 1);
    EXPECT(output[42] == 0 && output[85] == 0 && output[128] == 1);
    EXPECT(memcmp(output + 45, path_code, 10) == 0 && all(output + 55, 30, 0) && all(output + 129, LENT - 129, MARK));
    lend();
    EXPECT(is(holvreiz_catalogue(survey, 2 * DRAWING, 1, 4, output, 129), HOLVREIZ_ANSWERED, 3, 0) && all(output + 129, LENT - 129, MARK));
    lend();
    EXPECT(is(holvreiz_catalogue(survey, 2 * DRAWING, 1, 4, output, 128), HOLVREIZ_OUTPUT_LENGTH, 0, 0));
    EXPECT(all(output, 128, 0) && all(output + 128, LENT - 128, MARK));
    lend();
    EXPECT(is(holvreiz_catalogue(survey, 3 * DRAWING, 1, 4, output, LENT), HOLVREIZ_NOT_CONNECTED, 0, 2) && all(output, LENT, MARK));
    EXPECT(is(holvreiz_catalogue(survey, 2 * DRAWING, 0, 9, output, LENT), HOLVREIZ_THRESHOLD, 0, 0) && all(output, LENT, MARK));
    EXPECT(is(holvreiz_catalogue(survey, 2 * DRAWING, 32, 9, output, LENT), HOLVREIZ_SIZE_LIMIT, 0, 0) && all(output, LENT, MARK));
    EXPECT(is(holvreiz_catalogue(survey, 0, 1, 4, output, LENT), HOLVREIZ_SURVEY_LENGTH, 0, 0) && all(output, LENT, MARK));
}

/* The path and the triangle as sheets of one crane and of two; the other calls, whatever the crane; drawings without the byte. */
static void cranes(void) {
    static const uint8_t map[3] = {0, 1, 2};
    uint8_t survey[2 * DRAWING], elsewhere[DRAWING];
    EXPECT(DRAWING == 73 && CRANE_AT == 72);
    memcpy(survey, path, DRAWING);
    memcpy(survey + DRAWING, triangle, DRAWING);

    lend();
    EXPECT(is(holvreiz_catalogue(survey, 2 * DRAWING, 1, 4, output, LENT), HOLVREIZ_ANSWERED, 3, 0));
    EXPECT(output[1] == 1 && output[ENTRY + 1] == 1 && output[2 * ENTRY + 1] == 1);
    lend();
    EXPECT(is(holvreiz_catalogue(survey, 2 * DRAWING, 2, 4, output, LENT), HOLVREIZ_ANSWERED, 0, 0) && all(output, LENT, MARK));
    survey[CRANE_AT] = 255;
    EXPECT(is(holvreiz_catalogue(survey, 2 * DRAWING, 2, 4, output, LENT), HOLVREIZ_ANSWERED, 2, 0));
    EXPECT(output[1] == 2 && output[ENTRY + 1] == 2 && all(output + 2 * ENTRY, LENT - 2 * ENTRY, MARK));
    lend();
    EXPECT(is(holvreiz_catalogue(survey, 2 * CRANE_AT, 1, 4, output, LENT), HOLVREIZ_DRAWING_LENGTH, 0, 0) && all(output, LENT, MARK));

    memcpy(elsewhere, path, DRAWING);
    elsewhere[CRANE_AT] = 255;
    EXPECT(is(holvreiz_code(elsewhere, DRAWING, output, LENT), HOLVREIZ_ANSWERED, 10, 0) && memcmp(output, path_code, 10) == 0);
    EXPECT(is(holvreiz_match(elsewhere, DRAWING, triangle, DRAWING, output, LENT), HOLVREIZ_ANSWERED, 3, 0) && memcmp(output, map, 3) == 0);
    EXPECT(is(holvreiz_same(elsewhere, DRAWING, path, DRAWING), HOLVREIZ_ANSWERED, 1, 0));
    EXPECT(is(holvreiz_same(elsewhere, CRANE_AT, path, DRAWING), HOLVREIZ_DRAWING_LENGTH, 0, 0));
    elsewhere[CRANE_AT - 1] = 1;
    EXPECT(is(holvreiz_code(elsewhere, DRAWING, output, LENT), HOLVREIZ_UNUSED_BYTE, 0, 0));
}

/* The list of the path and the triangle as two cranes, s = 1 and L = 4: right, incomplete, too long, with another support, in another order; the
 * settings and the survey before the length of the list. What is given stays as it was. */
static void lists(void) {
    enum { THREE = 3 * ENTRY };
    uint8_t survey[3 * DRAWING], list[THREE + ENTRY], before[THREE + ENTRY], kept[3 * DRAWING];
    fill_survey(survey);
    memset(list, 0, sizeof list);
    EXPECT(is(holvreiz_catalogue(survey, 2 * DRAWING, 1, 4, list, THREE), HOLVREIZ_ANSWERED, 3, 0));
    memcpy(kept, survey, sizeof survey);
    memcpy(before, list, sizeof list);

    EXPECT(is(holvreiz_check_list(survey, 2 * DRAWING, 1, 4, list, THREE), HOLVREIZ_ANSWERED, 1, 0));
    EXPECT(is(holvreiz_check_list(survey, 2 * DRAWING, 1, 8, list, THREE), HOLVREIZ_ANSWERED, 1, 0));
    EXPECT(is(holvreiz_check_list(survey, 2 * DRAWING, 1, 4, list, 2 * ENTRY), HOLVREIZ_ANSWERED, 0, 0));
    EXPECT(is(holvreiz_check_list(survey, 2 * DRAWING, 1, 4, list, THREE + ENTRY), HOLVREIZ_ANSWERED, 0, 0));
    EXPECT(is(holvreiz_check_list(survey, 2 * DRAWING, 1, 4, list, 0), HOLVREIZ_ANSWERED, 0, 0));
    EXPECT(is(holvreiz_check_list(survey, 2 * DRAWING, 2, 4, list, THREE), HOLVREIZ_ANSWERED, 0, 0));
    EXPECT(is(holvreiz_check_list(survey, 2 * DRAWING, 2, 4, list, 2 * ENTRY), HOLVREIZ_ANSWERED, 1, 0));
    EXPECT(is(holvreiz_check_list(survey, 2 * DRAWING, 3, 4, list, 0), HOLVREIZ_ANSWERED, 1, 0));

    EXPECT(is(holvreiz_check_list(survey, 2 * DRAWING, 1, 4, list, THREE - 1), HOLVREIZ_LIST_LENGTH, 0, 0));
    EXPECT(is(holvreiz_check_list(survey, 2 * DRAWING, 1, 4, list, THREE + 1), HOLVREIZ_LIST_LENGTH, 0, 0));
    EXPECT(is(holvreiz_check_list(survey, 1, 33, 9, list, 1), HOLVREIZ_THRESHOLD, 0, 0));
    EXPECT(is(holvreiz_check_list(survey, 1, 32, 9, list, 1), HOLVREIZ_SIZE_LIMIT, 0, 0));
    EXPECT(is(holvreiz_check_list(survey, 1, 1, 4, list, 1), HOLVREIZ_DRAWING_LENGTH, 0, 0));
    EXPECT(is(holvreiz_check_list(survey, 3 * DRAWING, 1, 4, list, 1), HOLVREIZ_NOT_CONNECTED, 0, 2));
    EXPECT(memcmp(survey, kept, sizeof survey) == 0 && memcmp(list, before, sizeof list) == 0);

    list[ENTRY + 1] = 1;
    EXPECT(is(holvreiz_check_list(survey, 2 * DRAWING, 1, 4, list, THREE), HOLVREIZ_ANSWERED, 0, 0));
    memcpy(list, before + ENTRY, ENTRY);
    memcpy(list + ENTRY, before, ENTRY);
    EXPECT(is(holvreiz_check_list(survey, 2 * DRAWING, 1, 4, list, THREE), HOLVREIZ_ANSWERED, 0, 0));
    memset(list, 255, sizeof list);
    EXPECT(is(holvreiz_check_list(survey, 2 * DRAWING, 1, 4, list, THREE), HOLVREIZ_ANSWERED, 0, 0));
}

/* The calls that are given no settings, of the same survey: no pattern has over three cables, so that both have the two entries for s = 2.
 * What is given stays as it was. */
static void lists_without_settings(void) {
    uint8_t survey[3 * DRAWING], list[3 * ENTRY], before[3 * ENTRY], kept[3 * DRAWING];
    fill_survey(survey);
    EXPECT(is(holvreiz_catalogue(survey, 2 * DRAWING, 1, 4, list, sizeof list), HOLVREIZ_ANSWERED, 3, 0));
    memcpy(kept, survey, sizeof survey);
    memcpy(before, list, sizeof list);

    EXPECT(is(holvreiz_check_usual(survey, 2 * DRAWING, list, 2 * ENTRY), HOLVREIZ_ANSWERED, 1, 0));
    EXPECT(is(holvreiz_check_usual(survey, 2 * DRAWING, list, 3 * ENTRY), HOLVREIZ_ANSWERED, 0, 0));
    EXPECT(is(holvreiz_check_usual(survey, DRAWING, list, 0), HOLVREIZ_ANSWERED, 1, 0));
    EXPECT(is(holvreiz_check_usual(survey, 2 * DRAWING, list, 1), HOLVREIZ_LIST_LENGTH, 0, 0));
    EXPECT(is(holvreiz_check_usual(survey, 1, list, 1), HOLVREIZ_DRAWING_LENGTH, 0, 0));
    EXPECT(is(holvreiz_check_usual(survey, 0, list, 1), HOLVREIZ_SURVEY_LENGTH, 0, 0));
    EXPECT(is(holvreiz_check_usual(survey, 3 * DRAWING, list, 1), HOLVREIZ_NOT_CONNECTED, 0, 2));

    EXPECT(is(holvreiz_check_four(survey, 2 * DRAWING, list, 2 * ENTRY), HOLVREIZ_ANSWERED, 1, 0));
    EXPECT(is(holvreiz_check_four(survey, 2 * DRAWING, list, 3 * ENTRY), HOLVREIZ_ANSWERED, 0, 0));
    EXPECT(is(holvreiz_check_four(survey, DRAWING, list, 0), HOLVREIZ_ANSWERED, 1, 0));
    EXPECT(is(holvreiz_check_four(survey, 2 * DRAWING, list, 1), HOLVREIZ_LIST_LENGTH, 0, 0));
    EXPECT(is(holvreiz_check_four(survey, 1, list, 1), HOLVREIZ_DRAWING_LENGTH, 0, 0));
    EXPECT(is(holvreiz_check_four(survey, 0, list, 1), HOLVREIZ_SURVEY_LENGTH, 0, 0));
    EXPECT(is(holvreiz_check_four(survey, 3 * DRAWING, list, 1), HOLVREIZ_NOT_CONNECTED, 0, 2));
    EXPECT(memcmp(survey, kept, sizeof survey) == 0 && memcmp(list, before, sizeof list) == 0);
}

/* A path of eight devices on two cranes has an entry for each number of cables from 1 to 7; its usual list ends with six, the one of before with
 * four. */
static void usual_and_former_lists(void) {
    static const uint8_t long_path[DRAWING] = {8, 7, 1, 1, 1, 1, 1, 1, 1, 1, 0, 0, 0, 1, 5, 1, 2, 5, 2, 3, 5, 3, 4, 5, 4, 5, 5, 5, 6, 5, 6, 7, 5};
    uint8_t survey[2 * DRAWING], list[7 * ENTRY];
    memcpy(survey, long_path, DRAWING);
    memcpy(survey + DRAWING, long_path, DRAWING);
    survey[CRANE_AT] = 1;
    EXPECT(is(holvreiz_catalogue(survey, 2 * DRAWING, 2, 7, list, sizeof list), HOLVREIZ_ANSWERED, 7, 0));
    for (uint32_t entries = 0; entries <= 7; entries++) {
        EXPECT(is(holvreiz_check_usual(survey, 2 * DRAWING, list, entries * ENTRY), HOLVREIZ_ANSWERED, entries == 6, 0));
        EXPECT(is(holvreiz_check_four(survey, 2 * DRAWING, list, entries * ENTRY), HOLVREIZ_ANSWERED, entries == 4, 0));
        EXPECT(is(holvreiz_check_list(survey, 2 * DRAWING, 2, 7, list, entries * ENTRY), HOLVREIZ_ANSWERED, entries == 7, 0));
    }
}

/* Whether three entries have these examples. */
static int have_examples(const uint8_t *entries, uint8_t first, uint8_t second, uint8_t third) {
    return entries[EXAMPLE_AT] == first && entries[ENTRY + EXAMPLE_AT] == second && entries[2 * ENTRY + EXAMPLE_AT] == third;
}

/* The cable, the path and the triangle: the lowest drawing that has them, whatever the cranes are; of 32 drawings the last alone, behind lone devices
 * and sheets of its own crane. */
static void examples(void) {
    enum { MOST = HOLVREIZ_SURVEY_DRAWINGS };
    static const uint8_t seven[DRAWING] = {1, 0, 7};
    uint8_t survey[MOST * DRAWING];
    EXPECT(ENTRY == 43 && EXAMPLE_AT == 42);
    fill_survey(survey);
    survey[CRANE_AT] = 7;
    survey[DRAWING + CRANE_AT] = 9;
    EXPECT(is(holvreiz_catalogue(survey, 2 * DRAWING, 1, 4, output, LENT), HOLVREIZ_ANSWERED, 3, 0) && have_examples(output, 0, 0, 1));
    memcpy(survey, triangle, DRAWING);
    memcpy(survey + DRAWING, path, DRAWING);
    EXPECT(is(holvreiz_catalogue(survey, 2 * DRAWING, 1, 4, output, LENT), HOLVREIZ_ANSWERED, 3, 0) && have_examples(output, 0, 0, 0));

    for (int d = 0; d < MOST; d++) {
        memcpy(survey + d * DRAWING, d == MOST - 1 ? triangle : d % 2 ? path : seven, DRAWING);
    }
    EXPECT(is(holvreiz_catalogue(survey, sizeof survey, 1, 4, output, LENT), HOLVREIZ_ANSWERED, 3, 0) && have_examples(output, 1, 1, 31));
}

/* Whether the three calls that check a list, of patterns of two cranes and at most four cables, return this. */
static int checked(const uint8_t *survey, size_t survey_length, const uint8_t *list, size_t list_length, uint32_t refusal, uint32_t count) {
    return is(holvreiz_check_list(survey, survey_length, 2, 4, list, list_length), refusal, count, 0)
        && is(holvreiz_check_usual(survey, survey_length, list, list_length), refusal, count, 0)
        && is(holvreiz_check_four(survey, survey_length, list, list_length), refusal, count, 0);
}

/* A path and two triangles, each its own crane. Every other example is a no, also where that drawing contains the pattern. */
static void lists_with_other_examples(void) {
    uint8_t survey[3 * DRAWING], list[3 * ENTRY];
    fill_survey(survey);
    memcpy(survey + 2 * DRAWING, triangle, DRAWING);
    survey[2 * DRAWING + CRANE_AT] = 2;
    EXPECT(is(holvreiz_catalogue(survey, sizeof survey, 2, 4, list, sizeof list), HOLVREIZ_ANSWERED, 3, 0) && have_examples(list, 0, 0, 1));
    EXPECT(checked(survey, sizeof survey, list, sizeof list, HOLVREIZ_ANSWERED, 1));
    for (size_t entry = 0; entry < 3; entry++) {
        uint8_t *example = list + entry * ENTRY + EXAMPLE_AT, right = *example;
        for (int other = 0; other < 256; other++) {
            *example = (uint8_t)other;
            EXPECT(checked(survey, sizeof survey, list, sizeof list, HOLVREIZ_ANSWERED, other == right));
        }
        *example = right;
    }
}

/* A drawing of devices of kind 1, whose cables have rising kinds. */
static void fill_drawing(uint8_t *drawing, const uint8_t (*ends)[2], uint8_t cables, uint8_t first_kind, uint8_t crane) {
    memset(drawing, 0, DRAWING);
    drawing[0] = cables + 1;
    drawing[1] = cables;
    memset(drawing + 2, 1, cables + 1);
    for (uint8_t c = 0; c < cables; c++) {
        const uint8_t cable[3] = {ends[c][0], ends[c][1], (uint8_t)(first_kind + c)};
        memcpy(drawing + 12 + 3 * c, cable, sizeof cable);
    }
    drawing[CRANE_AT] = crane;
}

/* Lists from before entries had an example: their length is refused, but for that of 43 patterns, which is the length of 42 entries and a no. No two
 * cables are of one kind, so that stars of four cables have 15 patterns each, a path of four 10 and one of two 3. */
static void lists_without_examples(void) {
    enum { PATTERNS = 43, OLD = 42 };
    static const uint8_t star[4][2] = {{0, 1}, {0, 2}, {0, 3}, {0, 4}}, row[4][2] = {{0, 1}, {1, 2}, {2, 3}, {3, 4}};
    static uint8_t survey[8 * DRAWING], list[PATTERNS * ENTRY], old[PATTERNS * OLD];
    for (uint8_t crane = 0; crane < 2; crane++) {
        uint8_t *sheets = survey + 4 * crane * DRAWING;
        fill_drawing(sheets, star, 4, 0, crane);
        fill_drawing(sheets + DRAWING, star, 4, 4, crane);
        fill_drawing(sheets + 2 * DRAWING, row, 4, 8, crane);
        fill_drawing(sheets + 3 * DRAWING, row, 2, 12, crane);
    }
    EXPECT(is(holvreiz_catalogue(survey, sizeof survey, 2, 4, list, sizeof list), HOLVREIZ_ANSWERED, PATTERNS, 0));
    EXPECT(checked(survey, sizeof survey, list, sizeof list, HOLVREIZ_ANSWERED, 1));
    for (size_t entry = 0; entry < PATTERNS; entry++) {
        memcpy(old + entry * OLD, list + entry * ENTRY, OLD);
    }
    EXPECT(checked(survey, sizeof survey, old, sizeof old, HOLVREIZ_ANSWERED, 0));
    EXPECT(checked(survey, sizeof survey, old, sizeof old - OLD, HOLVREIZ_LIST_LENGTH, 0));
    EXPECT(checked(survey, sizeof survey, old, OLD, HOLVREIZ_LIST_LENGTH, 0));
}

/* Every call of devices without cables, of kinds 7 and 8. */
static void lone(void) {
    static const uint8_t seven[DRAWING] = {1, 0, 7}, eight[DRAWING] = {1, 0, 8}, one[DRAWING] = {1, 0, 1}, with_cable[DRAWING] = {1, 1, 7};
    static const uint8_t code[5] = {0, 0, 7, 0, 7}, greater[5] = {0, 0, 8, 0, 8};
    static const uint8_t with_kind[5] = {0, 0, 7, 1, 7}, unequal[5] = {0, 0, 7, 0, 8};
    uint8_t survey[3 * DRAWING];

    lend();
    EXPECT(is(holvreiz_code(seven, DRAWING, output, 4), HOLVREIZ_OUTPUT_LENGTH, 0, 0) && all(output, LENT, MARK));
    EXPECT(is(holvreiz_code(with_cable, DRAWING, output, LENT), HOLVREIZ_CABLE_COUNT, 0, 0) && all(output, LENT, MARK));
    EXPECT(is(holvreiz_code(seven, DRAWING, output, LENT), HOLVREIZ_ANSWERED, 5, 0));
    EXPECT(memcmp(output, code, 5) == 0 && all(output + 5, LENT - 5, MARK));

    lend();
    EXPECT(is(holvreiz_decode(with_kind, 5, output, LENT), HOLVREIZ_STEP, 0, 0) && all(output, LENT, MARK));
    EXPECT(is(holvreiz_decode(unequal, 5, output, LENT), HOLVREIZ_KIND, 0, 0) && all(output, LENT, MARK));
    EXPECT(is(holvreiz_decode(code, 5, output, LENT), HOLVREIZ_ANSWERED, DRAWING, 0));
    EXPECT(memcmp(output, seven, DRAWING) == 0 && all(output + DRAWING, LENT - DRAWING, MARK));

    EXPECT(tested(code, 5, 1, 1));
    EXPECT(is(holvreiz_is_least(unequal, 5), HOLVREIZ_KIND, 0, 0));
    EXPECT(is(holvreiz_compare(code, 5, code, 5), HOLVREIZ_ANSWERED, 256 * 1 + 0, 0));
    EXPECT(before(code, 5, greater, 5, 0));
    EXPECT(before(greater, 5, path_code, 10, 0));
    EXPECT(is(holvreiz_compare(code, 5, with_kind, 5), HOLVREIZ_STEP, 0, 0));

    lend();
    EXPECT(is(holvreiz_match(seven, DRAWING, path, DRAWING, output, LENT), HOLVREIZ_ANSWERED, 0, 0) && all(output, LENT, MARK));
    EXPECT(is(holvreiz_match(path, DRAWING, one, DRAWING, output, LENT), HOLVREIZ_ANSWERED, 0, 0) && all(output, LENT, MARK));
    EXPECT(is(holvreiz_match(one, DRAWING, path, DRAWING, output, 0), HOLVREIZ_OUTPUT_LENGTH, 0, 0) && all(output, LENT, MARK));
    EXPECT(is(holvreiz_match(one, DRAWING, path, DRAWING, output, LENT), HOLVREIZ_ANSWERED, 1, 0));
    EXPECT(output[0] == 0 && all(output + 1, LENT - 1, MARK));
    EXPECT(is(holvreiz_same(seven, DRAWING, seven, DRAWING), HOLVREIZ_ANSWERED, 1, 0));
    EXPECT(is(holvreiz_same(seven, DRAWING, eight, DRAWING), HOLVREIZ_ANSWERED, 0, 0));
    EXPECT(is(holvreiz_same(seven, DRAWING, with_cable, DRAWING), HOLVREIZ_CABLE_COUNT, 0, 0));

    memcpy(survey, seven, DRAWING);
    memcpy(survey + DRAWING, seven, DRAWING);
    memcpy(survey + 2 * DRAWING, path, DRAWING);
    lend();
    EXPECT(is(holvreiz_catalogue(survey, 2 * DRAWING, 1, 8, output, LENT), HOLVREIZ_ANSWERED, 0, 0) && all(output, LENT, MARK));
    EXPECT(is(holvreiz_check_list(survey, 2 * DRAWING, 1, 8, output, 0), HOLVREIZ_ANSWERED, 1, 0));
    EXPECT(is(holvreiz_catalogue(survey, 3 * DRAWING, 1, 1, output, LENT), HOLVREIZ_ANSWERED, 1, 0));
    EXPECT(output[0] == 1 && output[1] == 1 && memcmp(output + 2, path_code, 5) == 0 && output[EXAMPLE_AT] == 2);
    EXPECT(all(output + ENTRY, LENT - ENTRY, MARK));
    memcpy(survey + DRAWING, with_cable, DRAWING);
    EXPECT(is(holvreiz_catalogue(survey, 3 * DRAWING, 1, 1, output, LENT), HOLVREIZ_CABLE_COUNT, 0, 1));
}

/* The smallest book, and each refusal: 16 before 17, and both before 15. */
static void books(void) {
    static const uint8_t cable[7] = {1, 0, 0, 1, 0, 0, 0};

    lend();
    EXPECT(is(holvreiz_book(1, 1, 1, output, 43), HOLVREIZ_ANSWERED, 1, 0));
    EXPECT(memcmp(output, cable, 7) == 0 && all(output + 7, 36, 0) && all(output + 43, LENT - 43, MARK));
    lend();
    EXPECT(is(holvreiz_book(1, 1, 2, output, LENT), HOLVREIZ_ANSWERED, 2, 0));
    EXPECT(memcmp(output, cable, 7) == 0 && output[43] == 2 && output[44] == 0 && all(output + 86, LENT - 86, MARK));
    EXPECT(output[EXAMPLE_AT] == 0 && output[ENTRY + EXAMPLE_AT] == 0);

    lend();
    EXPECT(is(holvreiz_book(0, 1, 1, output, LENT), HOLVREIZ_KIND_COUNT, 0, 0) && all(output, LENT, MARK));
    EXPECT(is(holvreiz_book(1, 4, 9, output, 42), HOLVREIZ_KIND_COUNT, 0, 0) && all(output, LENT, MARK));
    EXPECT(is(holvreiz_book(257, 1, 1, output, LENT), HOLVREIZ_KIND_COUNT, 0, 0) && all(output, LENT, MARK));
    EXPECT(is(holvreiz_book(3, 3, 4, output, LENT), HOLVREIZ_BOOK_LIMIT, 0, 0) && all(output, LENT, MARK));
    EXPECT(is(holvreiz_book(1, 1, 0, output, 0), HOLVREIZ_BOOK_LIMIT, 0, 0) && all(output, LENT, MARK));
    EXPECT(is(holvreiz_book(1, 1, 1, output, 0), HOLVREIZ_OUTPUT_LENGTH, 0, 0) && all(output, LENT, MARK));
    EXPECT(is(holvreiz_book(1, 1, 1, output, 42), HOLVREIZ_OUTPUT_LENGTH, 0, 0));
    EXPECT(all(output, 42, 0) && all(output + 42, LENT - 42, MARK));
}

int main(void) {
    codes();
    agreements();
    maps();
    catalogues();
    cranes();
    lists();
    lists_without_settings();
    usual_and_former_lists();
    examples();
    lists_with_other_examples();
    lists_without_examples();
    lone();
    books();
    return failures != 0;
}
