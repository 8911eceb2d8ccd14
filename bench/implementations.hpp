// The implementations that are compared and measured, behind one interface.
#pragma once

#include "nets.h"
#include "../package/include/gedrovit.h"
#include "straight.hpp"

#include <algorithm>

using straight::Net;
using straight::Verdict;

class Implementation {
public:
    explicit Implementation(const char *n) : name(n) {}
    virtual ~Implementation() = default;
    virtual Verdict check(const Net &net, uint32_t rounds) = 0;
    // With letters or without.
    virtual Verdict refine(const Net &net, uint32_t rounds, bool with_letters) = 0;
    // Whether the last call gave this net, and whether these letters.
    virtual bool gave(const Net &net) const = 0;
    virtual bool gave_letters(const std::vector<char> &letters) const = 0;
    const char *const name;
};

// The proved call, with tables lent for the largest net and touched, and a record of new points from zero in each call.
class Product : public Implementation {
public:
    Product() : Implementation("gedrovit") {}

    Verdict check(const Net &net, uint32_t rounds) override
    {
        gedrovit_finding found = gedrovit_check(rounds, &net.points.data()->x, 3 * net.points.size(), net.corners.data(), net.corners.size(), sides_of(net),
                                                net.sides.size(), net.marks.data(), net.marks.size(), net.tension, vertices.size(), faces.size(),
                                                marks.size(), true, letters.size(), work.data(), work.size());
        return {found.reason, found.place};
    }

    Verdict refine(const Net &net, uint32_t rounds, bool with_letters) override
    {
        tally.points = 0;
        last = gedrovit_refine(&tally, rounds, &net.points.data()->x, 3 * net.points.size(), net.corners.data(), net.corners.size(), sides_of(net),
                               net.sides.size(), net.marks.data(), net.marks.size(), net.tension, vertices.data(), vertices.size(), faces.data(), faces.size(), marks.data(), marks.size(), with_letters, letters.data(),
                               letters.size(), work.data(), work.size());
        return {last.reason, last.place};
    }

    // The number of edges of the segment that two nets share from these vertices; 0 if they share none.
    uint64_t share_seam(const Net &a, uint32_t start_a, const Net &b, uint32_t start_b)
    {
        return gedrovit_share_seam(&a.points.data()->x, 3 * a.points.size(), a.corners.data(), a.corners.size(), sides_of(a), a.sides.size(), a.marks.data(),
                                   a.marks.size(), a.tension, start_a, &b.points.data()->x, 3 * b.points.size(), b.corners.data(), b.corners.size(),
                                   sides_of(b), b.sides.size(), b.marks.data(), b.marks.size(), b.tension, start_b, work.data(), work.size())
            .edges;
    }

    bool gave(const Net &net) const override
    {
        return last.vertices == net.points.size() && 4 * last.faces == net.corners.size() &&
               std::equal(net.marks.begin(), net.marks.end(), marks.begin()) &&
               std::equal(vertices.data(), vertices.data() + 3 * last.vertices, &net.points.data()->x) &&
               std::equal(net.corners.begin(), net.corners.end(), faces.begin());
    }

    bool gave_letters(const std::vector<char> &due) const override
    {
        return last.vertices == due.size() && std::equal(due.begin(), due.end(), letters.begin());
    }

private:
    // Without side counts any pointer that is not null.
    static const uint8_t *sides_of(const Net &net) { return net.sides.empty() ? net.marks.data() : net.sides.data(); }

    gedrovit_report last = {};
    gedrovit_tally tally = {};
    std::vector<int32_t> vertices = std::vector<int32_t>(12 * MOST_REFINED, 1);
    std::vector<uint32_t> faces = std::vector<uint32_t>(4 * MOST_REFINED, 1), work = std::vector<uint32_t>(16 * MOST_REFINED, 1);
    std::vector<uint8_t> marks = std::vector<uint8_t>(4 * MOST_REFINED, 1), letters = marks;
};

// Straightforward C++; its vectors keep their memory from call to call.
class Straight : public Implementation {
public:
    Straight(const char *n, bool carries) : Implementation(n), refiner(carries) {}

    Verdict check(const Net &net, uint32_t) override { return refiner.check(net); }

    Verdict refine(const Net &net, uint32_t rounds, bool with_letters) override
    {
        return refiner.refine(net, rounds, refined, with_letters ? &letters : nullptr);
    }

    bool gave(const Net &net) const override
    {
        auto same = [](const straight::Point &a, const straight::Point &b) { return a.x == b.x && a.y == b.y && a.z == b.z; };
        return refined.corners == net.corners && refined.marks == net.marks &&
               std::equal(refined.points.begin(), refined.points.end(), net.points.begin(), net.points.end(), same);
    }

    bool gave_letters(const std::vector<char> &due) const override { return letters == due; }

    Net refined;
    std::vector<char> letters;

private:
    straight::Refiner refiner;
};

struct Implementations {
    Product product;
    Straight rebuilt{"rebuilt", false}, carried{"carried", true};
    std::array<Implementation *, 3> all = {&product, &rebuilt, &carried};
};

// One of the nets that are measured.
struct BenchmarkNet {
    explicit BenchmarkNet(bench_kind kind)
    {
        static bench_net made;
        make_net(&made, kind);
        name = made.name;
        faces = face_count(&made);
        for (size_t v = 0; v < made.vertex_count; v++)
            net.points.push_back({made.vertices[3 * v], made.vertices[3 * v + 1], made.vertices[3 * v + 2]});
        net.corners.assign(made.corners, made.corners + made.corner_count);
        net.sides.assign(made.sides, made.sides + made.side_count);
        net.marks.assign(made.marks, made.marks + made.vertex_count);
    }

    size_t refined_faces(uint32_t rounds) const { return faces << 2 * rounds; }

    const char *name;
    Net net;

private:
    size_t faces;
};
