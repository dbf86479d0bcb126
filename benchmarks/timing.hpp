// How the benchmark programs time and report: the best of several repeats, in nanoseconds.
#pragma once

#include <chrono>
#include <cstdio>

namespace timing {

inline double now() {
    return std::chrono::duration<double, std::nano>(std::chrono::steady_clock::now().time_since_epoch()).count();
}

// The time of one of `count` turns, the best of many repeats: what disturbs a repeat only makes it longer.
template <class Turn>
double best(int count, Turn turn) {
    double least = 1e300;
    for (int repeat = 0; repeat < 60; ++repeat) {
        const double began = now();
        for (int i = 0; i < count; ++i) turn();
        const double each = (now() - began) / count;
        if (each < least) least = each;
    }
    return least;
}

// One line of the benchmark's output; `./bench` makes its table of these.
inline void report(const char* name, double ours, double peer) {
    std::printf("bench %s %.1f %.1f %.3f\n", name, ours, peer, ours / peer);
    std::fflush(stdout);
}

// Keeps a result from being optimized away.
template <class T>
void keep(const T& value) {
    asm volatile("" : : "g"(&value) : "memory");
}

}  // namespace timing
