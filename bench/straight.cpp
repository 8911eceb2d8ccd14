#include "straight.hpp"

namespace straight {

namespace {

constexpr int64_t EXTRAPOLATED = 60;   // divisible by 1 to 5, the inner edges of a fan
constexpr int64_t SIZES = 840;         // divisible by 3 to 8, the sizes of a ring

Exact operator+(Exact a, Exact b) { return {a.x + b.x, a.y + b.y, a.z + b.z}; }
Exact operator-(Exact a, Exact b) { return {a.x - b.x, a.y - b.y, a.z - b.z}; }
Exact operator*(int64_t n, Exact a) { return {n * a.x, n * a.y, n * a.z}; }

// Halves upward. Lifted by 2^28 the quotient is not negative, so that division takes its floor without a branch. The sum is below 2^63.
int32_t rounded(int64_t n, int64_t denominator)
{
    constexpr int64_t lift = int64_t(1) << 28;
    const uint64_t lifted = static_cast<uint64_t>(n + denominator / 2 + lift * denominator);
    return static_cast<int32_t>(static_cast<int64_t>(lifted / static_cast<uint64_t>(denominator)) - lift);
}

Point rounded(Exact e, int64_t denominator) { return {rounded(e.x, denominator), rounded(e.y, denominator), rounded(e.z, denominator)}; }

// The three rules of a curve at a tension, over 64.
class Curve {
public:
    explicit Curve(uint32_t tension) : far(tension), near(32 + far) {}

    Exact interior(Exact p, Exact q, Exact r, Exact s) const { return near * (q + r) - far * (p + s); }
    Exact end_edge(Exact p, Exact q, Exact r) const { return (32 - far) * p + (32 + 2 * far) * q - far * r; }
    Exact midpoint(Exact p, Exact q) const { return 32 * (p + q); }

    const int64_t far, near;
};

// The rules on one net.
class Rules {
public:
    Rules(const Net &n, const QuadAdjacency &a) : net(n), adjacency(a), curve(n.tension), virtual_scale(EXTRAPOLATED * SIZES * curve.near) {}

    Exact edge_point(uint32_t h) const;
    Exact face_point(const std::vector<Exact> &edge_points, uint32_t f) const;

    // The denominators of edge points and of face points.
    int64_t edge_scale() const { return 64 * virtual_scale; }
    int64_t face_scale() const { return 128 * edge_scale(); }

private:
    // Neighbours and opposite corners round a vertex, over 60.
    struct Ring {
        int size;
        std::array<Exact, 8> neighbours, opposites;
    };

    struct Direction {
        Exact point;
        bool four_inner;
    };

    Exact at(uint32_t v) const
    {
        const Point &p = net.points[v];
        return {p.x, p.y, p.z};
    }

    Exact boundary_point(uint32_t h) const;
    Exact inner_point(uint32_t h) const;
    uint32_t straight_across(uint32_t h) const { return adjacency.end(adjacency.turn(adjacency.turn(h))); }
    Exact extrapolated(uint32_t v) const;
    Exact virtual_point(uint32_t h) const;
    Ring gather(uint32_t h) const;
    int close_fan(uint32_t v, Ring &ring) const;
    Exact weigh(const Ring &ring, int j) const;
    Direction direction(const std::vector<Exact> &edge_points, uint32_t h) const;
    uint32_t beyond(uint32_t h) const;

    const Net &net;
    const QuadAdjacency &adjacency;
    const Curve curve;
    const int64_t virtual_scale;   // the denominator of virtual points
};

Exact Rules::edge_point(uint32_t h) const
{
    return adjacency.mate(h) == NONE ? virtual_scale * boundary_point(h) : inner_point(h);
}

Exact Rules::boundary_point(uint32_t h) const
{
    uint32_t v = adjacency.start(h), w = adjacency.end(h);
    Exact p = at(v), q = at(w);
    auto before = [&] {
        uint32_t g = h;
        while (adjacency.turn(g) != NONE)
            g = adjacency.turn(g);
        return at(adjacency.start(Quads::prev(g)));
    };
    auto after = [&] { return at(adjacency.end(adjacency.fan_start(w))); };
    if (net.marks[v])
        return net.marks[w] ? curve.midpoint(p, q) : curve.end_edge(p, q, after());
    return net.marks[w] ? curve.end_edge(q, p, before()) : curve.interior(before(), p, q, after());
}

Exact Rules::inner_point(uint32_t h) const
{
    uint32_t g = adjacency.mate(h);
    uint32_t v = adjacency.start(h), w = adjacency.start(g);
    if (adjacency.is_regular(v) && adjacency.is_regular(w))
        return virtual_scale * curve.interior(at(straight_across(h)), at(v), at(w), at(straight_across(g)));
    return curve.interior(virtual_point(h), virtual_scale * at(v), virtual_scale * at(w), virtual_point(g));
}

// Over 60: twice the boundary vertex minus the mean of the far ends of its inner edges, or minus the opposite corner of its only face.
Exact Rules::extrapolated(uint32_t v) const
{
    uint32_t h = adjacency.fan_start(v);
    int64_t inner = adjacency.face_count(v) - 1;
    Exact twice = 2 * EXTRAPOLATED * at(v);
    if (inner == 0)
        return twice - EXTRAPOLATED * at(adjacency.opposite(h));
    Exact sum = {0, 0, 0};
    for (h = adjacency.turn(h); h != NONE; h = adjacency.turn(h))
        sum = sum + at(adjacency.end(h));
    return twice - EXTRAPOLATED / inner * sum;
}

Rules::Ring Rules::gather(uint32_t h) const
{
    Ring ring;
    ring.size = 0;
    uint32_t g = h;
    do {
        ring.neighbours[ring.size] = EXTRAPOLATED * at(adjacency.end(g));
        ring.opposites[ring.size++] = EXTRAPOLATED * at(adjacency.opposite(g));
        g = adjacency.turn(g);
    } while (g != NONE && g != h);
    return ring;
}

// Closes the fan of v: its last neighbour, then the extrapolated points.
int Rules::close_fan(uint32_t v, Ring &ring) const
{
    uint32_t first = adjacency.fan_start(v), last = first;
    while (adjacency.turn(last) != NONE)
        last = adjacency.turn(last);
    uint32_t b = adjacency.end(first), c = adjacency.start(Quads::prev(last));
    int m = ring.size;
    ring.neighbours[m] = EXTRAPOLATED * at(c);
    ring.opposites[m] = extrapolated(c);
    ring.neighbours[m + 1] = extrapolated(v);
    ring.opposites[m + 1] = extrapolated(b);
    return ring.size = m + 2;
}

// The virtual point on edge j of a ring.
Exact Rules::weigh(const Ring &ring, int j) const
{
    int n = ring.size;
    Exact sum = {0, 0, 0};
    for (int i = 0; i < n; i++) {
        int d = (i - j + n) % n;
        int64_t near = d == 0 || d == 1 || d == n - 1;
        int64_t beside = (d == n - 2) + (d == n - 1) + (d == 0) + (d == 1);
        sum = sum + curve.near * (4 - n * near) * ring.neighbours[i] + curve.far * (n * beside - 4) * ring.opposites[i];
    }
    return SIZES / n * sum;
}

// The virtual point at the vertex that h leaves.
Exact Rules::virtual_point(uint32_t h) const
{
    uint32_t v = adjacency.start(h);
    if (adjacency.is_regular(v))
        return virtual_scale * at(straight_across(h));
    if (!adjacency.is_boundary(v))
        return weigh(gather(h), 0);
    int j = 0;
    for (uint32_t g = adjacency.fan_start(v); g != h; g = adjacency.turn(g))
        j++;
    Ring ring = gather(adjacency.fan_start(v));
    close_fan(v, ring);
    return weigh(ring, j);
}

// The side opposite the mate of h, or NONE.
uint32_t Rules::beyond(uint32_t h) const
{
    uint32_t g = adjacency.mate(h);
    return g == NONE ? NONE : Quads::across(g);
}

// The direction of side h of a face, over 64 times the denominator of edge points.
Rules::Direction Rules::direction(const std::vector<Exact> &edge_points, uint32_t h) const
{
    uint32_t g = Quads::across(h);
    uint32_t before = beyond(h), after = beyond(g);
    auto on = [&](uint32_t side) { return edge_points[adjacency.edge(side)]; };
    if (before != NONE && after != NONE) {
        bool inner = adjacency.mate(before) != NONE && adjacency.mate(after) != NONE;
        return {curve.interior(on(before), on(h), on(g), on(after)), inner};
    }
    if (before != NONE)
        return {curve.end_edge(on(g), on(h), on(before)), false};
    if (after != NONE)
        return {curve.end_edge(on(h), on(g), on(after)), false};
    return {curve.midpoint(on(h), on(g)), false};
}

Exact Rules::face_point(const std::vector<Exact> &edge_points, uint32_t f) const
{
    Direction first = direction(edge_points, 4 * f), second = direction(edge_points, 4 * f + 1);
    if (first.four_inner == second.four_inner)
        return first.point + second.point;
    return 2 * (first.four_inner ? first : second).point;
}

// From the last face to the first, so that the table serves both.
void split_faces(std::vector<uint32_t> &corners, const QuadAdjacency &adjacency, uint32_t vertices)
{
    uint32_t count = static_cast<uint32_t>(corners.size() / 4);
    corners.resize(4 * corners.size());
    for (uint32_t f = count; f-- > 0;) {
        std::array<uint32_t, 4> old = {corners[4 * f], corners[4 * f + 1], corners[4 * f + 2], corners[4 * f + 3]};
        uint32_t centre = vertices + adjacency.edge_count() + f;
        for (uint32_t i = 0; i < 4; i++) {
            uint32_t h = 4 * f + i, *face = &corners[4 * h];
            face[0] = old[i], face[1] = vertices + adjacency.edge(h);
            face[2] = centre, face[3] = vertices + adjacency.edge(Quads::prev(h));
        }
    }
}

}

void Refiner::step(Net &net)
{
    uint32_t vertices = static_cast<uint32_t>(net.points.size()), faces = static_cast<uint32_t>(net.corners.size() / 4);
    Rules rules(net, adjacency);
    net.points.resize(vertices + adjacency.edge_count() + faces);
    if (edge_points.size() < adjacency.edge_count())
        edge_points.resize(adjacency.edge_count());
    uint32_t edge = 0;
    for (uint32_t h = 0; h < adjacency.size(); h++)
        if (adjacency.is_first(h)) {
            Exact e = rules.edge_point(h);
            edge_points[edge] = e;
            net.points[vertices + edge++] = rounded(e, rules.edge_scale());
        }
    for (uint32_t f = 0; f < faces; f++)
        net.points[vertices + edge + f] = rounded(rules.face_point(edge_points, f), rules.face_scale());
    split_faces(net.corners, adjacency, vertices);
    net.marks.resize(net.points.size());
}

// Leaves the adjacency for the first round, unless the net is split.
Verdict Refiner::check(const Net &net)
{
    if (net.tension > MOST_TENSION)
        return {16, 0};
    return net.sides.empty() ? adjacency.check(net) : drawn.check(net);
}

Verdict Refiner::refine(const Net &net, uint32_t rounds, Net &refined, std::vector<char> *letters)
{
    Verdict verdict = check(net);
    if (verdict.reason != 0)
        return verdict;
    bool splits = !net.sides.empty();
    if (splits)
        split(net, refined);
    else
        refined = net;
    if (letters) {
        letters->assign(net.points.size(), 'V');
        letters->resize(refined.points.size(), 'S');
    }
    for (uint32_t k = 0; k < rounds; k++) {
        if (k > 0 && carries)
            adjacency.carry(refined);
        else if (k > 0 || splits)
            adjacency.build(refined);
        if (letters)
            name_points(refined, *letters);
        step(refined);
    }
    return verdict;
}

}
