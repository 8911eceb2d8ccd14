#include "straight.hpp"

namespace straight {

void Polygons::set(const Net &net)
{
    faces.resize(net.corners.size());
    nexts.resize(net.corners.size());
    prevs.resize(net.corners.size());
    uint32_t first = 0;
    for (uint32_t f = 0; f < net.sides.size(); f++) {
        uint32_t last = first + net.sides[f] - 1u;
        for (uint32_t h = first; h <= last; h++) {
            faces[h] = f;
            nexts[h] = h == last ? first : h + 1;
            prevs[h] = h == first ? last : h - 1;
        }
        first = last + 1;
    }
}

namespace {

// The sum of some points divided by their number, halves upward.
class Mean {
public:
    void add(const Point &p) { sum = {sum.x + p.x, sum.y + p.y, sum.z + p.z}, count++; }
    Point rounded() const { return {rounded(sum.x), rounded(sum.y), rounded(sum.z)}; }

private:
    int32_t rounded(int64_t n) const
    {
        int64_t numerator = 2 * n + count, denominator = 2 * count;
        return static_cast<int32_t>(numerator / denominator - (numerator % denominator < 0));
    }

    Exact sum = {0, 0, 0};
    int64_t count = 0;
};

}

// Adds the midpoint of each edge, then the mean of each face. Quadrilateral h stands at corner h.
void Refiner::split(const Net &net, Net &split) const
{
    uint32_t count = drawn.size(), edge = static_cast<uint32_t>(net.points.size()), face = edge + drawn.edge_count();
    split.points = net.points;
    split.marks = net.marks;
    split.tension = net.tension;
    split.points.resize(face + net.sides.size());
    split.marks.resize(split.points.size());
    split.corners.resize(4 * count);
    Mean mean;
    for (uint32_t h = 0; h < count; h++) {
        const Point &from = net.points[drawn.start(h)];
        if (drawn.is_first(h)) {
            Mean middle;
            middle.add(from);
            middle.add(net.points[drawn.end(h)]);
            split.points[edge + drawn.edge(h)] = middle.rounded();
        }
        mean.add(from);
        if (h + 1 == count || drawn.face(h + 1) != drawn.face(h)) {
            split.points[face + drawn.face(h)] = mean.rounded();
            mean = Mean();
        }
        uint32_t *corners = &split.corners[4 * h];
        corners[0] = drawn.start(h), corners[1] = edge + drawn.edge(h);
        corners[2] = face + drawn.face(h), corners[3] = edge + drawn.edge(drawn.prev(h));
    }
}

}
