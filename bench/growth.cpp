// How a catalogue's time grows with its entries: surveys of more and more drawings of ten kinds, every pattern listed. Then surveys in which
// nearly all kinds differ, so that a pattern has hundreds of candidates.
#include "clock.hpp"
#include "holvreiz.h"
#include "surveys.hpp"
#include <cstdio>
#include <cstdlib>

using bench::Bytes;

struct Point { int drawings; uint32_t limit; };

constexpr Point POINTS[] = {{1, 4}, {4, 4}, {16, 4}, {4, 6}, {16, 6}, {32, 6}, {8, 8}, {16, 8}, {32, 8}};
constexpr size_t MOST = 8446368;

struct Counted { uint32_t entries; double time; };

static Counted count(const Bytes &survey, int drawings, uint32_t limit, Bytes &output) {
    uint64_t returned = 0;
    double time = bench::least([&] {
        returned = holvreiz_catalogue(survey.data(), drawings * bench::DRAWING_BYTES, 1, limit, output.data(), output.size());
    });
    if (holvreiz_refusal(returned)) {
        printf("WRONG: refusal %u\n", holvreiz_refusal(returned));
        exit(1);
    }
    return {holvreiz_count(returned), time};
}

static void row(const char *what, const Bytes &survey, int drawings, uint32_t limit, Bytes &output) {
    Counted c = count(survey, drawings, limit, output);
    printf("| %s | %d | %u | %u | %.2f | %.3f |\n", what, drawings, limit, c.entries, 1e3 * c.time, 1e6 * c.time / c.entries);
    fflush(stdout);
}

// Two joined devices of kind 0 in each drawing, and eight others of other kinds, each joined to both by a cable of its own kind: the pattern of
// the two has up to 512 candidates.
static Bytes hubs() {
    Bytes bytes;
    for (int d = 0; d < bench::SURVEY_DRAWINGS; d++) {
        std::vector<int> kinds(bench::DEVICES);
        std::vector<bench::Cable> cables = {{0, 1, 0}};
        for (int v = 2; v < bench::DEVICES; v++) {
            kinds[v] = 1 + (8 * d + v) % 255;
            cables.push_back({0, v, (8 * d + v) % 256});
            cables.push_back({1, v, (8 * d + v + 100) % 256});
        }
        bench::file(bytes, bench::drawing_of(kinds, cables), d);
    }
    return bytes;
}

int main() {
    Bytes ten = bench::survey(10, 7), output(MOST * HOLVREIZ_ENTRY_BYTES);
    printf("| survey | drawings | L | entries | ms | us for each entry |\n|---|---|---|---|---|---|\n");
    for (Point p : POINTS) row("ten kinds", ten, p.drawings, p.limit, output);
    Bytes all = bench::survey(256, 7);
    row("256 kinds", all, bench::SURVEY_DRAWINGS, 4, output);
    row("256 kinds", all, bench::SURVEY_DRAWINGS, 6, output);
    row("two hubs", hubs(), bench::SURVEY_DRAWINGS, 2, output);
    row("two hubs", hubs(), bench::SURVEY_DRAWINGS, 4, output);
}
