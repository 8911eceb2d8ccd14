// A program as written for version 0.5.1: the nets of old_points.c through gedrovit.hpp, each made in another way.
#include <gedrovit.hpp>

#include <cstddef>
#include <cstdint>
#include <iostream>
#include <variant>

namespace {

gedrovit::tally bill{};

void print(const char *name, std::uint32_t rounds, const gedrovit::net &net)
{
    const auto fine = std::get<gedrovit::net>(gedrovit::refine(bill, rounds, net));
    std::cout << name << ", rounds " << rounds << ", vertices " << fine.marks.size() << '\n';
    for (std::size_t i = 0; i < fine.vertices.size(); i += 3)
        std::cout << fine.vertices[i] << ' ' << fine.vertices[i + 1] << ' ' << fine.vertices[i + 2] << '\n';
}

} // namespace

int main()
{
    const gedrovit::net seat{{0,   0,   3, 100, 0,   20, 200, 0,   -7, 300, 0,   0, 0,   100, 9, 110, 95,  60, 190, 105, 81, 300, 100, 5,
                              0,   200, 0, 90,  205, 77, 215, 200, 50, 300, 200, 8, 0,   300, 1, 100, 300, 13, 200, 300, 4,  300, 300, 2},
                             {0, 1, 5, 4, 1, 2, 6, 5, 2, 3, 7, 6, 4, 5, 9, 8, 5, 6, 10, 9, 6, 7, 11, 10, 8, 9, 13, 12, 9, 10, 14, 13, 10, 11, 15, 14},
                             {1, 0, 0, 1, 0, 0, 0, 0, 0, 0, 0, 0, 1, 0, 0, 1}};
    print("seat", 2, seat);
    gedrovit::net cube;
    cube.vertices = {-540, -540, -540, 540, -540, -540, 540, 540, -540, -540, 540, -540, -540, -540, 540, 540, -540, 540, 540, 540, 540, -540, 540, 540};
    cube.faces = {0, 3, 2, 1, 4, 5, 6, 7, 0, 1, 5, 4, 1, 2, 6, 5, 2, 3, 7, 6, 3, 0, 4, 7};
    cube.marks.resize(8);
    print("cube", 1, cube);
    print("row", 1, {{0, 20, 0, 24, 0, 0, 24, 40, 0, 48, 50, 9, 72, 40, 0, 72, 0, 0, 96, 20, 0}, {0, 1, 2, 1, 5, 4, 3, 2, 5, 6, 4}, {1, 0, 0, 0, 0, 0, 1}, {3, 5, 3}});
    std::cout << "new points " << bill.points << '\n';
}
