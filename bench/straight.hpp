// The same refinement in straightforward C++17: what the proved call is measured against.
#pragma once

#include <array>
#include <cstdint>
#include <vector>

namespace straight {

constexpr uint32_t NONE = UINT32_MAX, MOST_TENSION = 4;

struct Point {
    int32_t x, y, z;
};

// Numerators over a denominator that is known where they are used.
struct Exact {
    int64_t x, y, z;
};

// The corners of the faces follow each other. Without side counts every face has four.
struct Net {
    std::vector<Point> points;
    std::vector<uint32_t> corners;
    std::vector<uint8_t> sides, marks;
    uint32_t tension = MOST_TENSION;
};

// Reason 0: accepted.
struct Verdict {
    uint32_t reason;
    uint64_t place;
};

// A half-edge is a side of a face. It has the number of the corner where it begins, and runs to the next corner of the face.
class Quads {
public:
    void set(const Net &) {}

    static uint32_t sides(const Net &, uint32_t) { return 4; }
    static uint32_t face(uint32_t h) { return h / 4; }
    static uint32_t next(uint32_t h) { return (h & ~3u) | ((h + 1) & 3); }
    static uint32_t prev(uint32_t h) { return (h & ~3u) | ((h + 3) & 3); }
    static uint32_t across(uint32_t h) { return h ^ 2; }
};

// The same for faces with side counts.
class Polygons {
public:
    void set(const Net &net);

    static uint32_t sides(const Net &net, uint32_t f) { return net.sides[f]; }
    uint32_t face(uint32_t h) const { return faces[h]; }
    uint32_t next(uint32_t h) const { return nexts[h]; }
    uint32_t prev(uint32_t h) const { return prevs[h]; }

private:
    std::vector<uint32_t> faces, nexts, prevs;
};

template <class Shape> class Adjacency {
public:
    // Refusals 5 to 12, from which the adjacency comes.
    Verdict check(const Net &net);
    void build(const Net &net);

    uint32_t size() const { return static_cast<uint32_t>(mates.size()); }
    uint32_t edge_count() const { return edges; }
    uint32_t mate(uint32_t h) const { return mates[h]; }
    uint32_t edge(uint32_t h) const { return numbers[h]; }
    bool is_first(uint32_t h) const { return h < mates[h]; }
    uint32_t face(uint32_t h) const { return shape.face(h); }
    uint32_t prev(uint32_t h) const { return shape.prev(h); }
    uint32_t start(uint32_t h) const { return (*corners)[h]; }
    uint32_t end(uint32_t h) const { return start(shape.next(h)); }

    // The half-edge that leaves the same vertex in the next face, or NONE.
    uint32_t turn(uint32_t h) const { return mates[prev(h)]; }
    uint32_t face_count(uint32_t v) const { return face_counts[v]; }
    bool is_boundary(uint32_t v) const { return fan_starts[v] != NONE; }
    // The boundary half-edge that leaves v, from which turning meets all faces, or NONE.
    uint32_t fan_start(uint32_t v) const { return fan_starts[v]; }

protected:
    void number_edges();

    const std::vector<uint32_t> *corners = nullptr;
    std::vector<uint32_t> mates, numbers, face_counts, fan_starts;

private:
    struct Outgoing {
        uint32_t end, half_edge;
    };

    void sort_by_start(uint32_t vertices);
    void find_mates();
    uint32_t find(uint32_t from, uint32_t to) const;
    Verdict check_tables(const Net &net) const;
    Verdict check_sides() const;
    Verdict check_vertices(const Net &net) const;

    Shape shape;
    std::vector<uint32_t> first;      // where the half-edges of a vertex begin in `outgoing`
    std::vector<Outgoing> outgoing;   // all half-edges, by the vertex that they leave
    uint32_t edges = 0;
};

class QuadAdjacency : public Adjacency<Quads> {
public:
    // The adjacency of a net just refined, from the adjacency before.
    void carry(const Net &refined);

    bool is_regular(uint32_t v) const { return face_counts[v] == 4 && !is_boundary(v); }
    uint32_t opposite(uint32_t h) const { return start(Quads::across(h)); }

private:
    void split_mates(uint32_t f);
};

// Keeps its memory from call to call. Each round builds the adjacency anew, or carries it over from the round before.
class Refiner {
public:
    explicit Refiner(bool carry) : carries(carry) {}
    // Refusal 16, then 5 to 12.
    Verdict check(const Net &net);
    // The refined net, with a letter for each of its vertices if a table for them is given, unless there is a refusal.
    Verdict refine(const Net &net, uint32_t rounds, Net &refined, std::vector<char> *letters);

private:
    void split(const Net &net, Net &refined) const;
    void name_points(const Net &net, std::vector<char> &letters) const;
    void step(Net &net);

    bool carries;
    QuadAdjacency adjacency;
    Adjacency<Polygons> drawn;
    std::vector<Exact> edge_points;
};

}
