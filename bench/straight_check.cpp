#include "straight.hpp"

#include <algorithm>
#include <numeric>

namespace straight {

template <class Shape> void Adjacency<Shape>::build(const Net &net)
{
    corners = &net.corners;
    sort_by_start(static_cast<uint32_t>(net.points.size()));
    find_mates();
    number_edges();
}

template <class Shape> void Adjacency<Shape>::sort_by_start(uint32_t vertices)
{
    uint32_t n = static_cast<uint32_t>(corners->size());
    first.assign(vertices + 1, 0);
    outgoing.resize(n);
    for (uint32_t h = 0; h < n; h++)
        first[start(h)]++;
    face_counts.assign(first.begin(), first.end() - 1);
    std::partial_sum(first.begin(), first.end(), first.begin());
    for (uint32_t h = n; h-- > 0;)
        outgoing[--first[start(h)]] = {end(h), h};
}

// The half-edge between two vertices, or NONE.
template <class Shape> uint32_t Adjacency<Shape>::find(uint32_t from, uint32_t to) const
{
    for (uint32_t i = first[from]; i < first[from + 1]; i++)
        if (outgoing[i].end == to)
            return outgoing[i].half_edge;
    return NONE;
}

template <class Shape> void Adjacency<Shape>::find_mates()
{
    mates.assign(outgoing.size(), NONE);
    fan_starts.assign(first.size() - 1, NONE);
    for (uint32_t h = 0; h < mates.size(); h++) {
        if (mates[h] != NONE)
            continue;
        uint32_t g = find(end(h), start(h));
        mates[h] = g;
        if (g == NONE)
            fan_starts[start(h)] = h;
        else
            mates[g] = h;
    }
}

template <class Shape> void Adjacency<Shape>::number_edges()
{
    numbers.resize(mates.size());
    edges = 0;
    for (uint32_t h = 0; h < mates.size(); h++)
        numbers[h] = is_first(h) ? edges++ : numbers[mates[h]];
}

// Refined face 4f + i stands at corner i of face f: its number is that of the half-edge that leaves there.
void QuadAdjacency::split_mates(uint32_t f)
{
    const std::array<uint32_t, 4> old = {mates[4 * f], mates[4 * f + 1], mates[4 * f + 2], mates[4 * f + 3]};
    for (uint32_t i = 0; i < 4; i++) {
        uint32_t h = 4 * f + i, mate = old[i], before = old[(i + 3) % 4];
        mates[4 * h] = mate == NONE ? NONE : 4 * Quads::next(mate) + 3;
        mates[4 * h + 1] = 4 * Quads::next(h) + 2;
        mates[4 * h + 2] = 4 * Quads::prev(h) + 1;
        mates[4 * h + 3] = before == NONE ? NONE : 4 * before;
    }
}

void QuadAdjacency::carry(const Net &refined)
{
    uint32_t n = size();
    face_counts.resize(refined.points.size(), 4);
    fan_starts.resize(refined.points.size(), NONE);
    for (uint32_t h = 0; h < n; h++)
        if (mates[h] == NONE) {
            uint32_t from = refined.corners[4 * h], middle = refined.corners[4 * h + 1];
            fan_starts[from] = 4 * h;
            fan_starts[middle] = 4 * Quads::next(h) + 3;
            face_counts[middle] = 2;
        }
    mates.resize(4 * n);
    for (uint32_t f = n / 4; f-- > 0;)
        split_mates(f);
    corners = &refined.corners;
    number_edges();
}

namespace {

template <class Table, class Test> Verdict first_bad(uint32_t reason, const Table &table, Test is_bad)
{
    auto found = std::find_if(table.begin(), table.end(), is_bad);
    if (found == table.end())
        return {0, 0};
    return {reason, static_cast<uint64_t>(found - table.begin())};
}

bool is_outside(const Point &p)
{
    constexpr int32_t limit = 1048576;
    auto outside = [](int32_t c) { return c < -limit || c > limit; };
    return outside(p.x) || outside(p.y) || outside(p.z);
}

bool has_bad_corner(const uint32_t *corners, uint32_t count, size_t vertices)
{
    for (uint32_t i = 0; i < count; i++) {
        if (corners[i] >= vertices)
            return true;
        for (uint32_t j = 0; j < i; j++)
            if (corners[j] == corners[i])
                return true;
    }
    return false;
}

std::vector<uint8_t> used_vertices(const Net &net)
{
    std::vector<uint8_t> used(net.points.size());
    for (uint32_t v : net.corners)
        used[v] = 1;
    return used;
}

}

// Refusals 5 to 8.
template <class Shape> Verdict Adjacency<Shape>::check_tables(const Net &net) const
{
    Verdict verdict = first_bad(5, net.points, is_outside);
    if (verdict.reason == 0)
        verdict = first_bad(6, net.marks, [](uint8_t mark) { return mark > 1; });
    for (uint32_t f = 0, h = 0; verdict.reason == 0 && h < net.corners.size(); h += Shape::sides(net, f++))
        if (has_bad_corner(&net.corners[h], Shape::sides(net, f), net.points.size()))
            verdict = {7, f};
    if (verdict.reason == 0)
        verdict = first_bad(8, used_vertices(net), [](uint8_t used) { return !used; });
    return verdict;
}

// Refusal 9: the first face with a side that runs as a side of an earlier face does.
template <class Shape> Verdict Adjacency<Shape>::check_sides() const
{
    for (uint32_t h = 0; h < mates.size(); h++)
        if (find(start(h), end(h)) < h)
            return {9, face(h)};
    return {0, 0};
}

// Refusals 10 to 12: the lowest reason, and its lowest vertex.
template <class Shape> Verdict Adjacency<Shape>::check_vertices(const Net &net) const
{
    Verdict verdict = {0, 0};
    auto refuse = [&](uint32_t reason, uint32_t v) {
        if (verdict.reason == 0 || reason < verdict.reason)
            verdict = {reason, v};
    };
    for (uint32_t v = 0; v < net.points.size(); v++) {
        bool boundary = is_boundary(v);
        uint32_t h = boundary ? fan_start(v) : outgoing[first[v]].half_edge, g = h, met = 0;
        do {
            met++;
            g = turn(g);
        } while (g != NONE && g != h);
        if (met != face_count(v))
            refuse(10, v);
        else if (boundary ? met > 6 : met < 3 || met > 8)
            refuse(11, v);
        else if (!boundary && net.marks[v])
            refuse(12, v);
    }
    return verdict;
}

template <class Shape> Verdict Adjacency<Shape>::check(const Net &net)
{
    corners = &net.corners;
    shape.set(net);
    Verdict verdict = check_tables(net);
    if (verdict.reason != 0)
        return verdict;
    build(net);
    verdict = check_sides();
    return verdict.reason != 0 ? verdict : check_vertices(net);
}

template class Adjacency<Quads>;
template class Adjacency<Polygons>;

}
