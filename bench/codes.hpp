// Codes of drawings, as bytes: some code of a drawing, and how far two codes agree.
#pragma once
#include "surveys.hpp"
#include <algorithm>

namespace bench {

constexpr int RECORD_BYTES = 5;

// A depth-first walk through a drawing that goes on to any device each time, and its code.
class Walk {
public:
    Walk(Random &random, const Bytes &drawing) : random(random), drawing(drawing), number(drawing[0], NONE) {
        cable.assign(drawing[0], std::vector<int>(drawing[0], NONE));
        for (int c = 0; c < drawing[1]; c++) {
            const uint8_t *ends = drawing.data() + CABLES_AT + 3 * c;
            cable[ends[0]][ends[1]] = cable[ends[1]][ends[0]] = ends[2];
        }
    }

    // A device that no walk was at. Of its cables all but the one to where it was reached from lead back, to lower devices first.
    void visit(int v) {
        number[v] = numbered++;
        if (!path.empty()) record(path.back(), v);
        for (size_t k = 0; k + 1 < path.size(); k++)
            if (cable[v][path[k]] != NONE) record(v, path[k]);
        path.push_back(v);
        std::vector<int> order;
        for (size_t w = 0; w < number.size(); w++) order.push_back(w);
        shuffle(random, order);
        for (int w : order)
            if (cable[v][w] != NONE && number[w] == NONE) visit(w);
        path.pop_back();
    }

    Bytes code;

private:
    static constexpr int NONE = -1;

    void record(int u, int v) {
        for (int byte : {number[u], number[v], (int)drawing[2 + u], cable[u][v], (int)drawing[2 + v]}) code.push_back(byte);
    }

    Random &random;
    const Bytes &drawing;
    std::vector<std::vector<int>> cable;
    std::vector<int> number, path;
    int numbered = 0;
};

// Some DFS code of a drawing with cables.
inline Bytes some_code(Random &random, const Bytes &drawing) {
    Walk walk(random, drawing);
    walk.visit(random() % drawing[0]);
    return walk.code;
}

// The number of records that both codes begin with.
inline uint32_t agreement(const Bytes &first, const Bytes &second) {
    size_t at = 0, shorter = std::min(first.size(), second.size());
    while (at < shorter && first[at] == second[at]) at++;
    return at / RECORD_BYTES;
}

}  // namespace bench
