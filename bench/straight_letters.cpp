#include "straight.hpp"

namespace straight {

namespace {

char edge_letter(const Net &net, const QuadAdjacency &adjacency, uint32_t h)
{
    if (adjacency.mate(h) != NONE)
        return 'C';
    return "ABM"[net.marks[adjacency.start(h)] + net.marks[adjacency.end(h)]];
}

// Whether the direction of side h of a face has four edges, all of them inner.
bool has_four_inner(const QuadAdjacency &adjacency, uint32_t h)
{
    uint32_t before = adjacency.mate(h), after = adjacency.mate(Quads::across(h));
    return before != NONE && after != NONE && adjacency.mate(Quads::across(before)) != NONE && adjacency.mate(Quads::across(after)) != NONE;
}

}

// One letter for each point that the next step makes, from the net and the adjacency before it.
void Refiner::name_points(const Net &net, std::vector<char> &letters) const
{
    for (uint32_t h = 0; h < adjacency.size(); h++)
        if (adjacency.is_first(h))
            letters.push_back(edge_letter(net, adjacency, h));
    for (uint32_t h = 0; h < adjacency.size(); h += 4)
        letters.push_back(has_four_inner(adjacency, h) || has_four_inner(adjacency, h + 1) ? 'D' : 'E');
}

}
