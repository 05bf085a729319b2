// Processor time of the calling thread.
#pragma once
#include <algorithm>
#include <time.h>

namespace bench {

inline double seconds() {
    timespec t;
    clock_gettime(CLOCK_THREAD_CPUTIME_ID, &t);
    return t.tv_sec + t.tv_nsec / 1e9;
}

constexpr int RUNS = 3;

// The least of three runs of the work.
template <class Work> double least(Work work) {
    double best = 1e9;
    for (int run = 0; run < RUNS; run++) {
        double start = seconds();
        work();
        best = std::min(best, seconds() - start);
    }
    return best;
}

// The same for a call that is too short for the clock: repeated so often that a run lasts a tenth of a millisecond.
template <class Work> double least_of_short(Work work) {
    double start = seconds();
    work();
    double once = seconds() - start;
    int often = once < 1e-4 ? 1 + (int)(1e-4 / std::max(once, 1e-6)) : 1;
    return least([&] { for (int i = 0; i < often; i++) work(); }) / often;
}

}  // namespace bench
