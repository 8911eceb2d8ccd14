// Small seeded nets, most of them acceptable, on which implementations are compared.
#pragma once

#include "straight.hpp"

#include <random>

namespace samples {

struct Sample {
    straight::Net net;
    uint32_t rounds;
};

// A net while it is made.
struct Draft {
    using Face = std::vector<uint32_t>;
    std::vector<Face> faces;
    std::vector<straight::Point> points;
    std::vector<uint8_t> marks;
};

class Generator {
public:
    explicit Generator(uint32_t seed) : engine(seed) {}
    Sample draw();

private:
    uint32_t below(size_t n) { return static_cast<uint32_t>(engine() % n); }
    uint32_t between(uint32_t low, uint32_t high) { return low + below(high - low + 1); }
    bool one_in(uint32_t n) { return below(n) == 0; }

    void add_shape(Draft &draft);
    void remove_faces(Draft &draft);
    void cut_faces(Draft &draft);
    void renumber(Draft &draft);
    void place(Draft &draft);
    void mark(Draft &draft);
    void damage(Draft &draft);
    straight::Net net_of(const Draft &draft);

    std::mt19937 engine;
};

}
