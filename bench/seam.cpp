// Measures the seam test of the proved archive beside the two checks that it makes.
#include "implementations.hpp"
#include "measure.hpp"

#include <cstdlib>

namespace {

// The net with one mark, at vertex 0, which is on the boundary: the segment there runs round the whole loop.
Net with_one_mark(Net net)
{
    std::fill(net.marks.begin(), net.marks.end(), 0);
    net.marks[0] = 1;
    return net;
}

// The net turned over, with its faces in the opposite order: its boundary runs the other way.
Net turned_over(Net net)
{
    std::reverse(net.corners.begin(), net.corners.end());
    std::reverse(net.sides.begin(), net.sides.end());
    return net;
}

}

int main(int argc, char **argv)
{
    Product product;
    auto prepare = [&](bench_row row) {
        BenchmarkNet made(row.kind);
        const Net a = with_one_mark(made.net), b = turned_over(a);
        const uint64_t edges = product.share_seam(a, 0, b, 0);
        if (edges == 0) {
            std::fprintf(stderr, "%s: no shared segment\n", made.name);
            std::exit(1);
        }
        Calls calls = {made.name + (", " + std::to_string(edges)) + " edges", 0, 2 * made.refined_faces(0), {}};
        calls.each.push_back({product.name, [&product, a, b] { product.share_seam(a, 0, b, 0); }});
        calls.each.push_back({"checks", [&product, a, b] { product.check(a, 0), product.check(b, 0); }});
        return calls;
    };
    return measure(argc, argv, SEAM_ROW_COUNT, seam_row, prepare);
}
