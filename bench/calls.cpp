// Times of coding, the least test, decoding, sameness, matching, the largest book and the checks. Every answer is looked at: a wrong one ends
// the run. A library from before the least test told an agreement is measured with -DVERDICT_ALONE, which looks at its yes or no alone.
#include "clock.hpp"
#include "codes.hpp"
#include "holvreiz.h"
#include "surveys.hpp"
#include <cstdio>
#include <cstdlib>

using bench::Bytes;

struct Shape { int devices, cables, device_kinds, cable_kinds; };

constexpr Shape SHAPES[] = {{10, 20, 1, 1}, {10, 20, 3, 2}, {10, 12, 1, 1}, {10, 9, 1, 1}, {10, 9, 4, 3}, {7, 8, 1, 1}, {7, 8, 3, 2}};
constexpr int DRAWINGS = 60, PAIRS = 1200, OTHERS = 100;

#ifdef VERDICT_ALONE
constexpr bool AGREEMENT = false;
#else
constexpr bool AGREEMENT = true;
#endif

static void expect(bool right, const char *what) {
    if (right) return;
    printf("WRONG: %s\n", what);
    exit(1);
}

struct Times {
    double sum = 0, worst = 0;
    int count = 0;

    void add(double seconds) {
        sum += seconds;
        worst = std::max(worst, seconds);
        count++;
    }
    double mean() const { return 1e6 * sum / count; }
    double most() const { return 1e6 * worst; }
};

static Bytes code_of(const Bytes &drawing) {
    Bytes code(HOLVREIZ_CODE_BYTES);
    uint64_t returned = holvreiz_code(drawing.data(), drawing.size(), code.data(), code.size());
    expect(holvreiz_refusal(returned) == 0, "a drawing is refused");
    code.resize(holvreiz_count(returned));
    return code;
}

static double time_coding(const Bytes &drawing) {
    Bytes out(HOLVREIZ_CODE_BYTES);
    return bench::least_of_short([&] { holvreiz_code(drawing.data(), drawing.size(), out.data(), out.size()); });
}

static double time_least(const Bytes &code, const Bytes &least) {
    uint64_t returned = 0;
    double time = bench::least_of_short([&] { returned = holvreiz_is_least(code.data(), code.size()); });
    expect(holvreiz_refusal(returned) == 0, "a code is refused");
    expect(holvreiz_verdict(returned) == (code == least), "a least code is not called least, or another one is");
    expect(!AGREEMENT || holvreiz_agreement(returned) == bench::agreement(code, least), "another agreement with the least code");
    return time;
}

static double time_decoding(const Bytes &code) {
    Bytes out(HOLVREIZ_DRAWING_BYTES);
    double time = bench::least_of_short([&] { holvreiz_decode(code.data(), code.size(), out.data(), out.size()); });
    expect(code_of(out) == code, "a least code is not that of what it decodes to");
    return time;
}

static double time_same(const Bytes &first, const Bytes &second) {
    uint64_t returned = 0;
    double time = bench::least_of_short([&] { returned = holvreiz_same(first.data(), first.size(), second.data(), second.size()); });
    expect(returned == 1, "two drawings of one pattern are not called the same");
    return time;
}

static double time_matching(const Bytes &pattern, const Bytes &drawing, bool contained) {
    Bytes map(HOLVREIZ_MAP_BYTES);
    uint64_t returned = 0;
    double time = bench::least_of_short([&] {
        returned = holvreiz_match(pattern.data(), pattern.size(), drawing.data(), drawing.size(), map.data(), map.size());
    });
    expect(!contained || returned == pattern[0], "a part of a drawing is not found in it");
    return time;
}

// Half of the pairs are a part of a drawing and the drawing, so that a map exists; half a part of one drawing and another drawing.
static Times match_times(bench::Random &random, const std::vector<Bytes> &drawings) {
    Times times;
    for (int k = 0; k < PAIRS; k++) {
        const Bytes &from = drawings[k % DRAWINGS];
        const Bytes &other = drawings[random() % DRAWINGS];
        int cables = 1 + random() % from[1];
        Bytes pattern = bench::renumbered(random, bench::part(random, from, cables));
        times.add(time_matching(pattern, k % 2 ? other : from, k % 2 == 0));
    }
    return times;
}

static std::vector<Bytes> drawings_of(bench::Random &random, const Shape &s) {
    std::vector<Bytes> drawings;
    for (int k = 0; k < DRAWINGS; k++) drawings.push_back(bench::drawing(random, s.devices, s.cables, s.device_kinds, s.cable_kinds));
    return drawings;
}

static void row(const Shape &s) {
    bench::Random random(7);
    std::vector<Bytes> drawings = drawings_of(random, s);
    Times coding, least, decoding, same;
    for (const Bytes &drawing : drawings) {
        Bytes code = code_of(drawing);
        coding.add(time_coding(drawing));
        least.add(time_least(code, code));
        decoding.add(time_decoding(code));
        same.add(time_same(drawing, bench::renumbered(random, drawing)));
    }
    Times matching = match_times(random, drawings);
    printf("| %d, %d | %d, %d | %.1f, %.1f ", s.devices, s.cables, s.device_kinds, s.cable_kinds, coding.mean(), coding.most());
    printf("| %.1f, %.1f | %.2f, %.2f ", least.mean(), least.most(), decoding.mean(), decoding.most());
    printf("| %.1f, %.1f | %.1f, %.1f |\n", same.mean(), same.most(), matching.mean(), matching.most());
    fflush(stdout);
}

static Bytes star(int leaves) {
    std::vector<bench::Cable> cables;
    for (int v = 1; v <= leaves; v++) cables.push_back({0, v, 0});
    return bench::drawing_of(std::vector<int>(leaves + 1), cables);
}

// Each of the first a devices joined with each of the b others.
static Bytes bipartite(int a, int b) {
    std::vector<bench::Cable> cables;
    for (int u = 0; u < a; u++)
        for (int v = 0; v < b; v++) cables.push_back({u, a + v, 0});
    return bench::drawing_of(std::vector<int>(a + b), cables);
}

// Seven devices, each joined with each but for one pair: as many cables as a drawing may have.
static Bytes near_clique() {
    std::vector<bench::Cable> cables;
    for (int u = 0; u < 7; u++)
        for (int v = u + 1; v < 7; v++)
            if (u != 0 || v != 1) cables.push_back({u, v, 0});
    return bench::drawing_of(std::vector<int>(7), cables);
}

static Bytes petersen() {
    std::vector<bench::Cable> cables;
    for (int v = 0; v < 5; v++) {
        cables.push_back({v, (v + 1) % 5, 0});
        cables.push_back({v, v + 5, 0});
        cables.push_back({v + 5, (v + 2) % 5 + 5, 0});
    }
    return bench::drawing_of(std::vector<int>(10), cables);
}

// Some code of a drawing that is not its least.
static Bytes other_code(bench::Random &random, const Bytes &drawing, const Bytes &least) {
    for (int tries = 0; tries < 1000; tries++) {
        Bytes code = bench::some_code(random, drawing), decoded(HOLVREIZ_DRAWING_BYTES);
        holvreiz_decode(code.data(), code.size(), decoded.data(), decoded.size());
        expect(code_of(decoded) == least, "a walk's code is of another drawing");
        if (code != least) return code;
    }
    expect(false, "no other code is found");
    return least;
}

// Of so many such codes the one that agrees with the least in the most records.
static Bytes nearest_code(bench::Random &random, const Bytes &drawing, const Bytes &least) {
    Bytes nearest = other_code(random, drawing, least);
    for (int k = 1; k < OTHERS; k++) {
        Bytes code = other_code(random, drawing, least);
        if (bench::agreement(nearest, least) < bench::agreement(code, least)) nearest = code;
    }
    return nearest;
}

// The least test of codes that are not the least, and how far they agree with it.
struct Others {
    Times times;
    double records = 0;

    void add(const Bytes &code, const Bytes &least) {
        times.add(time_least(code, least));
        records += bench::agreement(code, least);
    }
    void print() const { printf("| %.2f, %.2f | %.1f ", times.mean(), times.most(), records / times.count); }
};

static void other_codes(const std::vector<Bytes> &drawings) {
    bench::Random random(7);
    Others any, nearest;
    for (const Bytes &drawing : drawings) {
        Bytes least = code_of(drawing);
        any.add(other_code(random, drawing, least), least);
        nearest.add(nearest_code(random, drawing, least), least);
    }
    any.print();
    nearest.print();
    printf("|\n");
    fflush(stdout);
}

static void row_of_others(const Shape &s) {
    bench::Random random(7);
    printf("| %d, %d; %d, %d ", s.devices, s.cables, s.device_kinds, s.cable_kinds);
    other_codes(drawings_of(random, s));
}

static void symmetric(const char *name, const Bytes &drawing) {
    bench::Random random(7);
    Bytes code = code_of(drawing);
    double coding = time_coding(drawing), least = time_least(code, code);
    double same = time_same(drawing, bench::renumbered(random, drawing));
    printf("| %s | %.1f | %.1f | %.1f |\n", name, 1e6 * coding, 1e6 * least, 1e6 * same);
}

static void book() {
    constexpr int ENTRIES = 1947;
    Bytes out(ENTRIES * HOLVREIZ_ENTRY_BYTES);
    uint64_t returned = 0;
    double time = bench::least([&] { returned = holvreiz_book(3, 3, 3, out.data(), out.size()); });
    expect(returned == ENTRIES, "the largest book has another number of entries");
    printf("| 3, 3, 3 | %d | %.2f |\n", ENTRIES, 1e3 * time);
}

// A code's 15 comes after the check of its drawing and before the search: with nothing lent, the check is all there is.
static double time_check(const Bytes &drawing) {
    uint8_t nothing;
    uint64_t returned = 0;
    double time = bench::least_of_short([&] { returned = holvreiz_code(drawing.data(), drawing.size(), &nothing, 0); });
    expect(holvreiz_refusal(returned) == HOLVREIZ_OUTPUT_LENGTH, "a code without room is not refused for that");
    return time;
}

// A survey whose last drawing is not connected: all its drawings are checked, the last one too to its end, and nothing is mined.
static double time_survey_check(Bytes survey, int last) {
    Bytes apart = near_clique();
    apart[0] = bench::DEVICES;
    std::copy(apart.begin(), apart.end(), survey.begin() + last * bench::DRAWING_BYTES);
    uint8_t nothing;
    uint64_t returned = 0;
    double time = bench::least_of_short([&] { returned = holvreiz_catalogue(survey.data(), survey.size(), 2, 4, &nothing, 0); });
    bool right = holvreiz_refusal(returned) == HOLVREIZ_NOT_CONNECTED && holvreiz_drawing(returned) == (uint32_t)last;
    expect(right, "a survey is not refused for its last drawing");
    return time;
}

static void checks() {
    bench::Random random(7);
    Times drawing, survey;
    for (int k = 0; k < DRAWINGS; k++) drawing.add(time_check(bench::drawing(random, bench::DEVICES, bench::CABLES, 3, 2)));
    for (unsigned seed = 1; seed <= 3; seed++) survey.add(time_survey_check(bench::survey(3, seed), bench::SURVEY_DRAWINGS - 1));
    printf("| a drawing of 10 devices and 20 cables | %.2f, %.2f |\n", drawing.mean(), drawing.most());
    printf("| a survey of 32 such drawings | %.2f, %.2f |\n", survey.mean(), survey.most());
}

static void symmetric_others(const char *name, const Bytes &drawing) {
    printf("| %s ", name);
    other_codes({drawing});
}

struct Symmetric { const char *name; Bytes drawing; };

int main() {
    const Symmetric symmetrics[] = {{"star of 6 leaves", star(6)}, {"star of 9 leaves", star(9)}, {"K(2,8)", bipartite(2, 8)},
                                    {"K(4,5)", bipartite(4, 5)}, {"K7 less one cable", near_clique()}, {"Petersen graph", petersen()}};
    printf("| devices, cables | kinds, cable kinds | code | is_least | decode | same | match |\n|---|---|---|---|---|---|---|\n");
    for (const Shape &shape : SHAPES) row(shape);
    printf("\n| drawing of one kind | code | is_least | same |\n|---|---|---|---|\n");
    for (const Symmetric &s : symmetrics) symmetric(s.name, s.drawing);
    printf("\n| is_least of codes that are not least: devices, cables; kinds, cable kinds | any code | records that agree ");
    printf("| the nearest of %d | records that agree |\n|---|---|---|---|---|\n", OTHERS);
    for (const Shape &shape : SHAPES) row_of_others(shape);
    for (const Symmetric &s : symmetrics) symmetric_others(s.name, s.drawing);
    printf("\n| book: a, b, limit | entries | milliseconds |\n|---|---|---|\n");
    book();
    printf("\n| check | microseconds |\n|---|---|\n");
    checks();
}
