#include "baseline.hpp"
#include "gspan.hpp"

template <class Count> static std::vector<uint8_t> catalogue(const std::vector<uint8_t> &survey, int threshold, int limit) {
    constexpr size_t DRAWING_BYTES = 73;
    std::vector<gspan::Drawing> drawings;
    for (size_t at = 0; at < survey.size(); at += DRAWING_BYTES) drawings.push_back(gspan::read_drawing(survey.data() + at));
    gspan::Miner<Count> miner{drawings, threshold, limit, {}, 0, {}};
    miner.run();
    return std::move(miner.out);
}

std::vector<uint8_t> baseline_catalogue(const std::vector<uint8_t> &survey, int threshold, int limit, Counts counts) {
    if (counts == Counts::DRAWINGS) return catalogue<gspan::Drawings>(survey, threshold, limit);
    return catalogue<gspan::Cranes>(survey, threshold, limit);
}
