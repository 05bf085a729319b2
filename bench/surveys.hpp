// Random drawings and surveys, as bytes. The same seed gives the same bytes on every machine: std::mt19937 is fixed by the standard,
// and no distribution of the library is used.
#pragma once
#include <cstdint>
#include <random>
#include <utility>
#include <vector>

namespace bench {

using Bytes = std::vector<uint8_t>;
using Random = std::mt19937;

constexpr int DRAWING_BYTES = 73, DEVICES = 10, CABLES = 20, CABLES_AT = 12, CRANE_AT = 72, SURVEY_DRAWINGS = 32;

struct Cable { int a, b, kind; };

// A drawing of crane 0.
inline Bytes drawing_of(const std::vector<int> &kinds, const std::vector<Cable> &cables) {
    Bytes bytes(DRAWING_BYTES);
    bytes[0] = kinds.size();
    bytes[1] = cables.size();
    for (size_t v = 0; v < kinds.size(); v++) bytes[2 + v] = kinds[v];
    for (size_t c = 0; c < cables.size(); c++) {
        uint8_t *cable = bytes.data() + CABLES_AT + 3 * c;
        cable[0] = cables[c].a;
        cable[1] = cables[c].b;
        cable[2] = cables[c].kind;
    }
    return bytes;
}

// A connected drawing: a random tree, then cables between random pairs that are not joined yet.
inline Bytes drawing(Random &random, int devices, int most, int device_kinds, int cable_kinds) {
    std::vector<int> kinds;
    std::vector<Cable> cables;
    bool joined[DEVICES][DEVICES] = {};
    auto join = [&](int u, int v) {
        joined[u][v] = joined[v][u] = true;
        int kind = random() % cable_kinds;
        cables.push_back({u, v, kind});
    };
    for (int v = 0; v < devices; v++) kinds.push_back(random() % device_kinds);
    for (int v = 1; v < devices; v++) join(random() % v, v);
    while ((int)cables.size() < most) {
        int u = random() % devices;
        int v = random() % devices;
        if (u != v && !joined[u][v]) join(u, v);
    }
    return drawing_of(kinds, cables);
}

// Puts a drawing behind a survey, as a sheet of this crane.
inline void file(Bytes &survey, Bytes drawing, int crane) {
    drawing[CRANE_AT] = crane;
    survey.insert(survey.end(), drawing.begin(), drawing.end());
}

// A survey of the largest size: 32 drawings of 10 devices and 20 cables. Their cranes take turns: with 32 each drawing is its own.
inline Bytes survey(int kinds, unsigned seed, int cranes = SURVEY_DRAWINGS) {
    Random random(seed);
    Bytes bytes;
    for (int d = 0; d < SURVEY_DRAWINGS; d++) file(bytes, drawing(random, DEVICES, CABLES, kinds, kinds), d % cranes);
    return bytes;
}

template <class T> void shuffle(Random &random, std::vector<T> &list) {
    for (size_t i = list.size(); i > 1; i--) std::swap(list[i - 1], list[random() % i]);
}

// The same drawing with other device numbers and another order of cables and ends.
inline Bytes renumbered(Random &random, const Bytes &bytes) {
    int devices = bytes[0];
    std::vector<int> number, kinds(devices);
    std::vector<Cable> cables;
    for (int v = 0; v < devices; v++) number.push_back(v);
    shuffle(random, number);
    for (int v = 0; v < devices; v++) kinds[number[v]] = bytes[2 + v];
    for (int c = 0; c < bytes[1]; c++) {
        const uint8_t *cable = bytes.data() + CABLES_AT + 3 * c;
        int a = number[cable[0]], b = number[cable[1]];
        if (random() % 2) std::swap(a, b);
        cables.push_back({a, b, cable[2]});
    }
    shuffle(random, cables);
    return drawing_of(kinds, cables);
}

// A connected part of a drawing: cables are taken up at random where they touch what is there, up to this many.
inline Bytes part(Random &random, const Bytes &bytes, int most) {
    std::vector<int> number(DEVICES, -1), kinds, order;
    std::vector<Cable> cables;
    std::vector<bool> taken(CABLES);
    auto numbered = [&](int v) {
        if (number[v] < 0) {
            number[v] = kinds.size();
            kinds.push_back(bytes[2 + v]);
        }
        return number[v];
    };
    for (int c = 0; c < bytes[1]; c++) order.push_back(c);
    while ((int)cables.size() < most) {
        shuffle(random, order);
        for (int c : order) {
            const uint8_t *cable = bytes.data() + CABLES_AT + 3 * c;
            bool touches = cables.empty() || number[cable[0]] >= 0 || number[cable[1]] >= 0;
            if (taken[c] || !touches) continue;
            int a = numbered(cable[0]);
            int b = numbered(cable[1]);
            taken[c] = true;
            cables.push_back({a, b, cable[2]});
            break;
        }
    }
    return drawing_of(kinds, cables);
}

}  // namespace bench
