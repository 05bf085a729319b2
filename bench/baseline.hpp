// The baseline as one call: from the bytes of a survey to the bytes of its entries. Nothing is refused. It counts drawings, or cranes where asked.
#pragma once
#include <cstdint>
#include <vector>

enum class Counts { DRAWINGS, CRANES };

std::vector<uint8_t> baseline_catalogue(const std::vector<uint8_t> &survey, int threshold, int limit, Counts counts);
