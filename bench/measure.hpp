// The command line of the measuring programs. Each line that they print ends with: row, call, refined faces, rounds, name of the net.
//   PROGRAM time     prints for each row and call `time` with nanoseconds for each refined face, and `ratio` with the time of the first call divided by its own
//   PROGRAM count    makes each call on each row once to touch its tables, then once inside `counted_call`
#pragma once

#include "clock.h"
#include "nets.h"

#include <algorithm>
#include <cstdio>
#include <functional>
#include <iterator>
#include <string>
#include <vector>

struct Call {
    const char *name;
    std::function<void()> make;
};

// The calls to measure on one row.
struct Calls {
    std::string net;
    uint32_t rounds;
    size_t refined_faces;
    std::vector<Call> each;

    void print(int row, const Call &call) const
    {
        std::printf("%d %s %zu %u %s\n", row, call.name, refined_faces, rounds, net.c_str());
    }
};

extern "C" __attribute__((noinline)) inline void counted_call(const Call &call) { call.make(); }

inline double median(std::vector<double> values)
{
    auto middle = values.begin() + std::ptrdiff_t(values.size() / 2);
    std::nth_element(values.begin(), middle, values.end());
    return *middle;
}

// Makes the calls in turn, once to touch their tables, then 100 times: the best time, and the median of the ratios within a turn, for other work on the machine
// slows a whole turn. Calls on small nets are timed many at once.
inline void print_times(int row, const Calls &calls)
{
    const size_t many = 1 + 16384 / calls.refined_faces;
    std::vector<std::vector<double>> taken(calls.each.size());
    for (int turn = 0; turn <= 100; turn++)
        for (size_t i = 0; i < taken.size(); i++) {
            double before = seconds();
            for (size_t k = 0; k < many; k++)
                calls.each[i].make();
            if (turn > 0)
                taken[i].push_back(seconds() - before);
        }
    for (size_t i = 0; i < taken.size(); i++) {
        std::vector<double> ratios;
        std::transform(taken[0].begin(), taken[0].end(), taken[i].begin(), std::back_inserter(ratios), std::divides<>());
        std::printf("time %.3f ", 1e9 * *std::min_element(taken[i].begin(), taken[i].end()) / double(many * calls.refined_faces));
        calls.print(row, calls.each[i]);
        std::printf("ratio %.4f ", median(ratios));
        calls.print(row, calls.each[i]);
    }
}

inline void count(int row, const Calls &calls)
{
    for (const Call &call : calls.each) {
        call.make();
        counted_call(call);
        calls.print(row, call);
    }
}

// `prepare` gives no calls for a row that is not to be measured.
inline int measure(int argc, char **argv, int row_count, bench_row (*row)(int), const std::function<Calls(bench_row)> &prepare)
{
    const std::string mode = argc == 2 ? argv[1] : "";
    if (mode != "time" && mode != "count")
        return std::fprintf(stderr, "usage: %s time | count\n", argv[0]), 2;
    for (int i = 0; i < row_count; i++) {
        const Calls calls = prepare(row(i));
        if (!calls.each.empty())
            (mode == "time" ? print_times : count)(i, calls);
    }
    return 0;
}
