// The catalogue of the library beside that of the baseline: same surveys, same run, entries compared byte for byte. First each of the 32 drawings is
// a crane of its own, and the baseline counts drawings; then some of the same drawings are the sheets of 8 cranes, four each, and it counts cranes.
// Last, the check of a list beside the catalogue that it is held against, the usual one and the one of before.
#include "baseline.hpp"
#include "clock.hpp"
#include "holvreiz.h"
#include "surveys.hpp"
#include <cstdio>
#include <cstring>

using bench::Bytes;

struct Setting { uint32_t threshold, limit; };

constexpr Setting USUAL = {2, 6}, FORMER = {2, 4};
constexpr Setting SETTINGS[] = {FORMER, {1, 4}, {1, 6}, USUAL, {2, 8}};
constexpr int KINDS[] = {1, 2, 4, 10};
constexpr unsigned SEEDS[] = {7, 8, 9};
constexpr uint8_t LENT = 165;

struct Measured {
    size_t entries = 0;
    double baseline = 0, library = 0;
    bool agree = false;
};

// The lent output is one entry longer than the answer: what the call leaves there is compared too.
static Measured measure(int kinds, Setting setting, unsigned seed, int cranes) {
    Measured m;
    Bytes survey = bench::survey(kinds, seed, cranes), expected;
    Counts counts = cranes == bench::SURVEY_DRAWINGS ? Counts::DRAWINGS : Counts::CRANES;
    m.baseline = bench::least([&] { expected = baseline_catalogue(survey, setting.threshold, setting.limit, counts); });
    m.entries = expected.size() / HOLVREIZ_ENTRY_BYTES;
    expected.resize(expected.size() + HOLVREIZ_ENTRY_BYTES, LENT);
    Bytes output(expected.size(), LENT);
    uint64_t returned = 0;
    m.library = bench::least([&] {
        returned = holvreiz_catalogue(survey.data(), survey.size(), setting.threshold, setting.limit, output.data(), output.size());
    });
    m.agree = holvreiz_refusal(returned) == 0 && holvreiz_count(returned) == m.entries && output == expected;
    return m;
}

struct Table {
    int catalogues = 0, differ = 0;
    double worst = 0;

    static void head() {
        printf("| kinds | s, L | entries | baseline ms | library ms | library / baseline |\n|---|---|---|---|---|---|\n");
    }

    void row(int kinds, Setting setting, int cranes) {
        Measured m[3];
        for (int i = 0; i < 3; i++) {
            m[i] = measure(kinds, setting, SEEDS[i], cranes);
            worst = std::max(worst, m[i].library / m[i].baseline);
            differ += !m[i].agree;
            catalogues++;
        }
        printf("| %d | %u, %u | %zu, %zu, %zu ", kinds, setting.threshold, setting.limit, m[0].entries, m[1].entries, m[2].entries);
        printf("| %.2f, %.2f, %.2f ", 1e3 * m[0].baseline, 1e3 * m[1].baseline, 1e3 * m[2].baseline);
        printf("| %.2f, %.2f, %.2f ", 1e3 * m[0].library, 1e3 * m[1].library, 1e3 * m[2].library);
        printf("| %.2f, %.2f, %.2f |\n", m[0].library / m[0].baseline, m[1].library / m[1].baseline, m[2].library / m[2].baseline);
        fflush(stdout);
    }

    void end() const {
        printf("\nWorst ratio %.2f. ", worst);
        if (differ) printf("DIFFERENT ENTRIES in %d of %d catalogues.\n", differ, catalogues);
        else printf("All %d catalogues agree byte for byte.\n", catalogues);
    }
};

constexpr size_t MOST_CHECKED = 60000;

// Of a list: right, wrong in its last entry, wrong in its first; and of no length that a list has, where all there is is the survey's check.
struct Checked {
    size_t entries = 0;
    double written = 0, right = 0, last = 0, first = 0, refused = 0;
    bool agree = true;
};

static double time_check(const Bytes &survey, Setting setting, const Bytes &list, uint64_t due, bool &agree) {
    uint64_t returned = 0;
    double time = bench::least_of_short([&] {
        returned = holvreiz_check_list(survey.data(), survey.size(), setting.threshold, setting.limit, list.data(), list.size());
    });
    agree = agree && returned == due;
    return time;
}

static Checked measure_checks(int kinds, Setting setting, unsigned seed) {
    Checked c;
    Bytes survey = bench::survey(kinds, seed), right(MOST_CHECKED * HOLVREIZ_ENTRY_BYTES);
    uint64_t returned = 0;
    c.written = bench::least_of_short([&] {
        returned = holvreiz_catalogue(survey.data(), survey.size(), setting.threshold, setting.limit, right.data(), right.size());
    });
    c.entries = holvreiz_count(returned);
    c.agree = holvreiz_refusal(returned) == 0 && c.entries > 0;
    right.resize(c.entries * HOLVREIZ_ENTRY_BYTES);
    Bytes last = right, first = right, longer = right;
    last.back() ^= 1;
    first.front() ^= 1;
    longer.push_back(0);
    c.right = time_check(survey, setting, right, 1, c.agree);
    c.last = time_check(survey, setting, last, 0, c.agree);
    c.first = time_check(survey, setting, first, 0, c.agree);
    c.refused = time_check(survey, setting, longer, (uint64_t)HOLVREIZ_LIST_LENGTH << 32, c.agree);
    return c;
}

// The number of checks with a wrong answer.
static int check_rows() {
    int differ = 0;
    printf("| kinds | s, L | entries | catalogue ms | right list ms | wrong in its last entry ms | wrong in its first entry ms | refused 18 ms |\n");
    printf("|---|---|---|---|---|---|---|---|\n");
    for (int kinds : KINDS)
        for (Setting setting : {USUAL, FORMER}) {
            Checked c[3];
            for (int i = 0; i < 3; i++) {
                c[i] = measure_checks(kinds, setting, SEEDS[i]);
                differ += !c[i].agree;
            }
            printf("| %d | %u, %u | %zu, %zu, %zu ", kinds, setting.threshold, setting.limit, c[0].entries, c[1].entries, c[2].entries);
            for (double Checked::*time : {&Checked::written, &Checked::right, &Checked::last, &Checked::first, &Checked::refused})
                printf("| %.3f, %.3f, %.3f ", 1e3 * (c[0].*time), 1e3 * (c[1].*time), 1e3 * (c[2].*time));
            printf("|\n");
            fflush(stdout);
        }
    if (differ) printf("\nWRONG ANSWERS of %d lists.\n", differ);
    return differ;
}

int main() {
    Table own, eight;
    Table::head();
    for (int kinds : KINDS)
        for (Setting setting : SETTINGS) own.row(kinds, setting, bench::SURVEY_DRAWINGS);
    own.end();
    printf("\nThe same drawings as sheets of 8 cranes, four each:\n\n");
    Table::head();
    for (int kinds : KINDS)
        for (Setting setting : {SETTINGS[0], SETTINGS[1]}) eight.row(kinds, setting, 8);
    eight.end();
    printf("\nLists checked, beside the catalogue written:\n\n");
    return own.differ + eight.differ + check_rows() != 0;
}
