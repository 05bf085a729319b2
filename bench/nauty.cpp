// Canonical labels by nauty, for the drawings that bench/calls.cpp times. Kinds of devices are colours; a kind of cable is a set of layers, one
// copy of the devices for each binary digit of 1 + kind, as nauty's guide has it. Two drawings of one pattern have to get one graph.
#include "clock.hpp"
#include "surveys.hpp"
#include <algorithm>
#include <cstdio>
#include <cstdlib>
#include <nauty/nauty.h>
#include <vector>

using bench::Bytes;

struct Shape { int devices, cables, device_kinds, cable_kinds; };

constexpr Shape SHAPES[] = {{10, 20, 1, 1}, {10, 20, 3, 2}, {10, 12, 1, 1}, {10, 9, 1, 1}, {10, 9, 4, 3}, {7, 8, 1, 1}, {7, 8, 3, 2}};
constexpr int DRAWINGS = 60, LAYERS = 2, VERTICES = LAYERS * bench::DEVICES;

struct Form {
    graph canonical[VERTICES];
    int kinds[bench::DEVICES];
};

// From the bytes of a drawing to its canonical graph, as coding goes from them to a code.
static void canonical(const Bytes &drawing, Form &form) {
    int n = drawing[0], m = drawing[1], most = 0;
    for (int c = 0; c < m; c++) most = std::max(most, (int)drawing[bench::CABLES_AT + 3 * c + 2]);
    int layers = most == 0 ? 1 : 2, vertices = layers * n;
    graph g[VERTICES];
    EMPTYGRAPH(g, 1, vertices);
    for (int c = 0; c < m; c++) {
        const uint8_t *cable = drawing.data() + bench::CABLES_AT + 3 * c;
        for (int layer = 0; layer < layers; layer++)
            if ((1 + cable[2]) >> layer & 1) ADDONEEDGE(g, layer * n + cable[0], layer * n + cable[1], 1);
    }
    for (int v = 0; layers == 2 && v < n; v++) ADDONEEDGE(g, v, n + v, 1);
    int lab[VERTICES], ptn[VERTICES], orbits[VERTICES];
    for (int v = 0; v < vertices; v++) lab[v] = v;
    auto colour = [&](int v) { return (v / n) * 256 + drawing[2 + v % n]; };
    std::stable_sort(lab, lab + vertices, [&](int u, int v) { return colour(u) < colour(v); });
    for (int k = 0; k < vertices; k++) ptn[k] = k + 1 < vertices && colour(lab[k]) == colour(lab[k + 1]);
    for (int k = 0; k < n; k++) form.kinds[k] = drawing[2 + lab[k] % n];
    static DEFAULTOPTIONS_GRAPH(options);
    options.getcanon = TRUE;
    options.defaultptn = FALSE;
    statsblk stats;
    densenauty(g, lab, ptn, orbits, &options, &stats, 1, vertices, form.canonical);
    std::fill(form.canonical + vertices, form.canonical + VERTICES, 0);
}

static double time_of(const Bytes &drawing, bench::Random &random) {
    Form first = {}, second = {};
    double time = bench::least_of_short([&] { canonical(drawing, first); });
    canonical(bench::renumbered(random, drawing), second);
    bool same = std::equal(first.canonical, first.canonical + VERTICES, second.canonical);
    if (!same || !std::equal(first.kinds, first.kinds + drawing[0], second.kinds)) {
        printf("WRONG: two drawings of one pattern\n");
        exit(1);
    }
    return time;
}

int main() {
    printf("| devices, cables | kinds, cable kinds | canonical graph |\n|---|---|---|\n");
    for (const Shape &s : SHAPES) {
        bench::Random random(7);
        std::vector<Bytes> drawings;
        double sum = 0, worst = 0;
        for (int k = 0; k < DRAWINGS; k++) drawings.push_back(bench::drawing(random, s.devices, s.cables, s.device_kinds, s.cable_kinds));
        for (const Bytes &drawing : drawings) {
            double time = time_of(drawing, random);
            sum += time;
            worst = std::max(worst, time);
        }
        printf("| %d, %d | %d, %d | %.1f, %.1f |\n", s.devices, s.cables, s.device_kinds, s.cable_kinds, 1e6 * sum / DRAWINGS, 1e6 * worst);
    }
}
