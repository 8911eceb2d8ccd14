// Two panels are tested for a shared boundary segment, then refined separately; the shared points are compared, and the new points of both are billed.
#include <gedrovit.hpp>

#include <algorithm>
#include <array>
#include <cstdint>
#include <iostream>
#include <map>
#include <set>
#include <stdexcept>
#include <string>
#include <utility>
#include <variant>
#include <vector>

using Point = std::array<std::int32_t, 3>;

using gedrovit::net;

// What a call gave; a refusal ends the program.
template <typename T> T given(std::variant<T, gedrovit::refusal> result)
{
    if (const auto *refusal = std::get_if<gedrovit::refusal>(&result))
        throw std::runtime_error("refusal " + std::to_string(refusal->reason) + ", place " + std::to_string(refusal->place) + ": " + refusal->text());
    return std::get<T>(std::move(result));
}

// From each boundary vertex the next one, the way the sides run.
std::map<std::uint32_t, std::uint32_t> boundary(const net &panel)
{
    std::set<std::array<std::uint32_t, 2>> sides;
    for (std::size_t h = 0; h < panel.faces.size(); h++)
        sides.insert({panel.faces[h], panel.faces[h % 4 == 3 ? h - 3 : h + 1]});
    std::map<std::uint32_t, std::uint32_t> next;
    for (const auto &[from, to] : sides)
        if (sides.count({to, from}) == 0)
            next.emplace(from, to);
    return next;
}

// The points from a marked boundary vertex to the next mark, both included, the way the sides run.
std::vector<Point> segment(const net &panel, std::uint32_t start)
{
    const auto next = boundary(panel);
    const auto point = [&panel](std::size_t v) {
        return Point{panel.vertices[3 * v], panel.vertices[3 * v + 1], panel.vertices[3 * v + 2]};
    };
    std::vector<Point> points{point(start)};
    for (auto at = next.at(start);; at = next.at(at)) {
        points.push_back(point(at));
        if (panel.marks[at] != 0)
            return points;
    }
}

int main() try {
    // The shared segment runs up from vertex 1 of the left panel and down from vertex 0 of the right one, so up from its vertex 3 against the sides.
    const net left{{0, 0, 0, 40, 0, 0, 2, 30, 5, 44, 30, 6, 0, 60, 1, 38, 60, 9, 0, 90, 0, 40, 90, 0},
                   {0, 1, 3, 2, 2, 3, 5, 4, 4, 5, 7, 6}, {1, 1, 0, 0, 0, 0, 1, 1}};
    const net right{{40, 90, 0, 38, 60, 9, 44, 30, 6, 40, 0, 0, 90, 95, 7, 70, 55, 33, 85, 35, 21, 80, -5, 0},
                    {1, 5, 4, 0, 2, 6, 5, 1, 3, 7, 6, 2}, {1, 0, 0, 1, 1, 0, 0, 1}};
    std::cout << "drawn: " << given(gedrovit::share_seam(left, 1, right, 3)) << " shared edges\n";
    gedrovit::tally bill{};
    bool same = true;
    for (std::uint32_t rounds = 0; rounds <= GEDROVIT_MAX_ROUNDS; rounds++) {
        const auto before = bill.points;
        const auto up = segment(given(gedrovit::refine(bill, rounds, left)), 1);
        auto down = segment(given(gedrovit::refine(bill, rounds, right)), 0);
        std::reverse(down.begin(), down.end());
        same = same && up == down;
        std::cout << "rounds " << rounds << ": " << up.size() << " shared points "
                  << (up == down ? "agree" : "differ") << ", " << bill.points - before << " new points\n";
    }
    std::cout << "the bill: " << bill.points << " new points\n";
    return same ? 0 : 1;
} catch (const std::runtime_error &refusal) {
    std::cerr << "seam: " << refusal.what() << '\n';
    return 1;
}
