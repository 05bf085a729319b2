// Looks for drawings that take a call long: from random ones, step by step to whatever takes longer, for so many seconds.
//   climb code|is_least|not_least|match SECONDS SEED
// is_least is given the least code of a drawing, not_least some other one where luck has it.
// What it finds is a lower bound of the worst, no more. The clock is the processor time of this thread.
#include "clock.hpp"
#include "codes.hpp"
#include "holvreiz.h"
#include "surveys.hpp"
#include <cstdio>
#include <cstdlib>
#include <string>

using bench::Bytes;
using bench::Cable;
using bench::Random;

// A drawing under work: so many devices and cables, one cable kind.
struct Sketch {
    std::vector<int> kinds;
    std::vector<Cable> cables;

    bool joined(int u, int v) const {
        for (const Cable &c : cables)
            if ((c.a == u && c.b == v) || (c.a == v && c.b == u)) return true;
        return false;
    }

    bool connected() const {
        std::vector<bool> reached(kinds.size());
        reached[0] = true;
        for (size_t round = 0; round < kinds.size(); round++)
            for (const Cable &c : cables)
                if (reached[c.a] || reached[c.b]) reached[c.a] = reached[c.b] = true;
        for (bool r : reached)
            if (!r) return false;
        return true;
    }

    Bytes bytes() const { return bench::drawing_of(kinds, cables); }
};

static Sketch random_sketch(Random &random, int least_devices) {
    int devices = least_devices + random() % (bench::DEVICES + 1 - least_devices);
    int most = std::min(bench::CABLES, devices * (devices - 1) / 2);
    int cables = devices - 1 + random() % (most - devices + 2);
    Bytes bytes = bench::drawing(random, devices, cables, random() % 4 ? 1 : 2, random() % 4 ? 1 : 2);
    Sketch s;
    for (int v = 0; v < devices; v++) s.kinds.push_back(bytes[2 + v]);
    for (int c = 0; c < bytes[1]; c++) {
        const uint8_t *cable = bytes.data() + bench::CABLES_AT + 3 * c;
        s.cables.push_back({cable[0], cable[1], cable[2]});
    }
    return s;
}

// One change: a cable more, less or elsewhere, another kind, or two devices exchanged. The drawing may then be one that is refused.
static void change(Random &random, Sketch &s) {
    int n = s.kinds.size(), u = random() % n, v = random() % n;
    size_t c = random() % s.cables.size();
    switch (random() % 6) {
    case 0:
        if (u != v && !s.joined(u, v) && s.cables.size() < (size_t)bench::CABLES) s.cables.push_back({u, v, s.cables[c].kind});
        break;
    case 1:
        if (s.cables.size() > 1) s.cables.erase(s.cables.begin() + c);
        break;
    case 2:
        s.kinds[u] = s.kinds[v];
        break;
    case 3:
        for (Cable &e : s.cables) {
            auto other = [&](int x) { return x == u ? v : x == v ? u : x; };
            e = {other(e.a), other(e.b), e.kind};
        }
        std::swap(s.kinds[u], s.kinds[v]);
        break;
    default:
        if (u != v && !s.joined(u, v)) s.cables[c] = {u, v, s.cables[c].kind};
    }
}

static Bytes least_code(const Bytes &drawing) {
    Bytes code(HOLVREIZ_CODE_BYTES);
    code.resize(holvreiz_count(holvreiz_code(drawing.data(), drawing.size(), code.data(), code.size())));
    return code;
}

// The same for the same drawing, so that one that takes long is found again.
static Bytes some_code(const Bytes &drawing) {
    Random random(1);
    return bench::some_code(random, drawing);
}

struct Climber {
    std::string call;

    double time(const Sketch &first, const Sketch &second) const {
        Bytes a = first.bytes(), b = second.bytes(), out(HOLVREIZ_CODE_BYTES);
        if (call == "match")
            return bench::least([&] { holvreiz_match(a.data(), a.size(), b.data(), b.size(), out.data(), out.size()); });
        if (call == "code") return bench::least([&] { holvreiz_code(a.data(), a.size(), out.data(), out.size()); });
        Bytes code = call == "is_least" ? least_code(a) : some_code(a);
        return bench::least([&] { holvreiz_is_least(code.data(), code.size()); });
    }
};

static void print(const char *name, const Sketch &s) {
    printf("  %s: kinds", name);
    for (int k : s.kinds) printf(" %d", k);
    printf("; cables");
    for (const Cable &c : s.cables) printf(" %d-%d.%d", c.a, c.b, c.kind);
    printf("\n");
}

int main(int words, char **word) {
    if (words != 4) return fprintf(stderr, "climb code|is_least|not_least|match SECONDS SEED\n"), 2;
    Climber climber{word[1]};
    double seconds = atof(word[2]), start = bench::seconds(), worst = 0;
    Random random(atoi(word[3]));
    constexpr int PATIENCE = 600;
    long tried = 0;
    while (bench::seconds() - start < seconds) {
        Sketch first = random_sketch(random, 4), second = random_sketch(random, bench::DEVICES);
        if (climber.call != "match") first = second;
        double best = climber.time(first, second);
        for (int idle = 0; idle < PATIENCE && bench::seconds() - start < seconds; idle++) {
            Sketch a = first, b = second;
            for (int steps = 1 + random() % 3; steps > 0; steps--) change(random, climber.call == "match" && random() % 2 ? b : a);
            if (!a.connected() || !b.connected()) continue;
            tried++;
            double now = climber.time(a, b);
            if (now <= best) continue;
            if (now > 1.02 * best) idle = 0;
            best = now, first = a, second = b;
        }
        if (best > worst) {
            worst = best;
            printf("%.1f us after %.0f s, %ld tried\n", 1e6 * worst, bench::seconds() - start, tried);
            print(climber.call == "match" ? "pattern" : "drawing", first);
            if (climber.call == "match") print("drawing", second);
            fflush(stdout);
        }
    }
    printf("%s: worst found %.1f us in %.0f s of processor time, %ld tried\n", word[1], 1e6 * worst, bench::seconds() - start, tried);
}
