#include "samples.hpp"

#include <algorithm>
#include <map>
#include <numeric>
#include <set>

namespace samples {

using Face = Draft::Face;

namespace {

// Adds faces whose corners are named by keys; equal keys are one vertex.
class Builder {
public:
    using Key = std::array<uint32_t, 3>;
    explicit Builder(Draft &d) : draft(d) {}

    void face(const std::vector<Key> &corners)
    {
        draft.faces.emplace_back();
        for (Key key : corners)
            draft.faces.back().push_back(vertex(key));
    }

private:
    uint32_t vertex(Key key)
    {
        auto [found, is_new] = numbers.emplace(key, static_cast<uint32_t>(draft.marks.size()));
        if (is_new)
            draft.marks.push_back(0);
        return found->second;
    }

    Draft &draft;
    std::map<Key, uint32_t> numbers;
};

// A grid, closed across or along where `wrap_x` or `wrap_y` says so.
void add_grid(Draft &draft, uint32_t columns, uint32_t rows, bool wrap_x, bool wrap_y)
{
    Builder builder(draft);
    for (uint32_t y = 0; y < rows; y++)
        for (uint32_t x = 0; x < columns; x++) {
            uint32_t right = wrap_x ? (x + 1) % columns : x + 1, up = wrap_y ? (y + 1) % rows : y + 1;
            builder.face({{x, y}, {right, y}, {right, up}, {x, up}});
        }
}

// Grids of `size` by `size` faces round one vertex, as a full ring or an open fan.
void add_sectors(Draft &draft, uint32_t count, uint32_t size, bool closed)
{
    Builder builder(draft);
    auto key = [&](uint32_t sector, uint32_t x, uint32_t y) -> Builder::Key {
        if (x > 0)
            return {sector, x, y};
        return y == 0 ? Builder::Key{0, 0, 0} : Builder::Key{closed ? (sector + 1) % count : sector + 1, y, 0};
    };
    for (uint32_t s = 0; s < count; s++)
        for (uint32_t y = 0; y < size; y++)
            for (uint32_t x = 0; x < size; x++)
                builder.face({key(s, x, y), key(s, x + 1, y), key(s, x + 1, y + 1), key(s, x, y + 1)});
}

// A closed net with two vertices in n faces each and 2n vertices in three; n = 3 is a cube.
void add_spindle(Draft &draft, uint32_t n)
{
    Builder builder(draft);
    auto belt = [&](uint32_t i) -> Builder::Key { return {0, i % (2 * n)}; };
    for (uint32_t i = 0; i < 2 * n; i += 2) {
        builder.face({{1}, belt(i), belt(i + 1), belt(i + 2)});
        builder.face({{2}, belt(i + 1), belt(i), belt(i + 2 * n - 1)});
    }
}

// Two faces of n sides, joined by n faces of four.
void add_prism(Draft &draft, uint32_t n)
{
    Builder builder(draft);
    std::vector<Builder::Key> lower, upper;
    for (uint32_t i = 0; i < n; i++) {
        uint32_t next = (i + 1) % n;
        builder.face({{0, i}, {0, next}, {1, next}, {1, i}});
        lower.push_back({0, n - 1 - i});
        upper.push_back({1, i});
    }
    builder.face(lower);
    builder.face(upper);
}

void drop_unused_vertices(Draft &draft)
{
    std::vector<uint32_t> numbers(draft.marks.size(), straight::NONE);
    uint32_t count = 0;
    for (Face &face : draft.faces)
        for (uint32_t &v : face) {
            if (numbers[v] == straight::NONE)
                numbers[v] = count++;
            v = numbers[v];
        }
    draft.marks.assign(count, 0);
}

std::vector<uint32_t> boundary_vertices(const Draft &draft)
{
    std::set<std::pair<uint32_t, uint32_t>> sides;
    for (const Face &face : draft.faces)
        for (size_t s = 0; s < face.size(); s++)
            sides.emplace(face[s], face[(s + 1) % face.size()]);
    std::vector<uint32_t> vertices;
    for (auto [from, to] : sides)
        if (sides.count({to, from}) == 0)
            vertices.push_back(from);
    return vertices;
}

}

void Generator::add_shape(Draft &draft)
{
    switch (below(7)) {
    case 0: return add_grid(draft, between(1, 6), between(1, 6), false, false);
    case 1: return add_grid(draft, between(3, 6), between(1, 4), true, false);
    case 2: return add_grid(draft, between(3, 5), between(3, 5), true, true);
    case 3: return add_sectors(draft, between(2, 9), between(1, 3), true);
    case 4: return add_sectors(draft, between(1, 7), between(1, 3), false);
    case 5: return add_prism(draft, between(3, 8));
    default: return add_spindle(draft, between(2, 9));
    }
}

void Generator::remove_faces(Draft &draft)
{
    for (uint32_t i = below(4); i > 0 && draft.faces.size() > 1; i--)
        draft.faces.erase(draft.faces.begin() + below(draft.faces.size()));
    drop_unused_vertices(draft);
}

// Some faces of four sides become two triangles.
void Generator::cut_faces(Draft &draft)
{
    for (size_t f = draft.faces.size(); f-- > 0;)
        if (draft.faces[f].size() == 4 && one_in(2)) {
            draft.faces.push_back({draft.faces[f][0], draft.faces[f][2], draft.faces[f][3]});
            draft.faces[f].pop_back();
        }
}

// Other vertex numbers, another order of the faces, other first corners, and sometimes all faces turned over.
void Generator::renumber(Draft &draft)
{
    std::vector<uint32_t> numbers(draft.marks.size());
    std::iota(numbers.begin(), numbers.end(), 0);
    std::shuffle(numbers.begin(), numbers.end(), engine);
    std::shuffle(draft.faces.begin(), draft.faces.end(), engine);
    bool turned = one_in(2);
    for (Face &face : draft.faces) {
        for (uint32_t &v : face)
            v = numbers[v];
        std::rotate(face.begin(), face.begin() + below(face.size()), face.end());
        if (turned)
            std::reverse(face.begin(), face.end());
    }
}

void Generator::place(Draft &draft)
{
    const uint32_t reach = std::array<uint32_t, 4>{8, 1000, 100000, 1048576}[below(4)];
    auto coordinate = [&] { return static_cast<int32_t>(between(0, 2 * reach)) - static_cast<int32_t>(reach); };
    draft.points.clear();
    for (size_t i = 0; i < draft.marks.size(); i++) {
        int32_t x = coordinate(), y = coordinate(), z = coordinate();
        draft.points.push_back({x, y, z});
    }
}

void Generator::mark(Draft &draft)
{
    uint32_t share = between(0, 3);
    for (uint32_t v : boundary_vertices(draft))
        draft.marks[v] = below(3) < share;
}

// One change that mostly gives a reason for a refusal.
void Generator::damage(Draft &draft)
{
    auto count = static_cast<uint32_t>(draft.points.size());
    Face &face = draft.faces[below(draft.faces.size())], &other = draft.faces[below(draft.faces.size())];
    switch (below(9)) {
    case 0: draft.points[below(count)].y = one_in(2) ? 1048577 : INT32_MIN; break;
    case 1: draft.marks[below(count)] = 2; break;
    case 2: face[below(face.size())] = count; break;
    case 3: face[0] = face.back(); break;
    case 4: draft.points.push_back({0, 0, 0}), draft.marks.push_back(0); break;
    case 5: std::swap(face[0], face[2]); break;
    case 6: other = face; break;
    case 7: draft.marks[below(count)] = 1; break;
    default: std::swap(face[below(face.size())], other[below(other.size())]);
    }
}

// With side counts where a face needs them, and in some other nets.
straight::Net Generator::net_of(const Draft &draft)
{
    straight::Net made;
    bool has_sides = one_in(4) || std::any_of(draft.faces.begin(), draft.faces.end(), [](const Face &face) { return face.size() != 4; });
    for (const Face &face : draft.faces) {
        made.corners.insert(made.corners.end(), face.begin(), face.end());
        if (has_sides)
            made.sides.push_back(static_cast<uint8_t>(face.size()));
    }
    made.points = draft.points;
    made.marks = draft.marks;
    return made;
}

Sample Generator::draw()
{
    Draft draft;
    add_shape(draft);
    if (one_in(5))
        add_shape(draft);
    if (one_in(3))
        remove_faces(draft);
    if (one_in(4))
        cut_faces(draft);
    renumber(draft);
    place(draft);
    mark(draft);
    if (one_in(4))
        damage(draft);
    return {net_of(draft), below(4)};
}

}
