// Measures OpenSubdiv on the nets of quadrilaterals at level 3 or 6: uniform Catmull-Clark refinement, positions in single precision.
#include "measure.hpp"

#include <opensubdiv/far/primvarRefiner.h>
#include <opensubdiv/far/topologyDescriptor.h>

#include <memory>

using namespace OpenSubdiv;

namespace {

struct Position {
    float x, y, z;
    void Clear(void * = nullptr) { x = y = z = 0; }
    void AddWithWeight(const Position &p, float w) { x += w * p.x, y += w * p.y, z += w * p.z; }
};

// A net in the form that OpenSubdiv takes; an open boundary is interpolated with sharp corners.
struct Input {
    explicit Input(bench_kind kind)
    {
        make_net(&net, kind);
        sizes.assign(face_count(&net), 4);
        corners.assign(net.corners, net.corners + net.corner_count);
        for (size_t v = 0; v < net.vertex_count; v++)
            positions.push_back({float(net.vertices[3 * v]), float(net.vertices[3 * v + 1]), float(net.vertices[3 * v + 2])});
        descriptor.numVertices = int(net.vertex_count);
        descriptor.numFaces = int(sizes.size());
        descriptor.numVertsPerFace = sizes.data();
        descriptor.vertIndicesPerFace = corners.data();
    }

    bench_net net;
    std::vector<int> sizes, corners;
    std::vector<Position> positions;
    Far::TopologyDescriptor descriptor;
};

std::unique_ptr<Far::TopologyRefiner> refine_topology(const Input &input, uint32_t rounds)
{
    using Factory = Far::TopologyRefinerFactory<Far::TopologyDescriptor>;
    Sdc::Options options;
    options.SetVtxBoundaryInterpolation(Sdc::Options::VTX_BOUNDARY_EDGE_AND_CORNER);
    std::unique_ptr<Far::TopologyRefiner> refiner(Factory::Create(input.descriptor, Factory::Options(Sdc::SCHEME_CATMARK, options)));
    refiner->RefineUniform(Far::TopologyRefiner::UniformOptions(int(rounds)));
    return refiner;
}

// The positions of all levels, one after the other.
void interpolate(const Far::TopologyRefiner &refiner, const Input &input, std::vector<Position> &positions)
{
    positions.resize(size_t(refiner.GetNumVerticesTotal()));
    std::copy(input.positions.begin(), input.positions.end(), positions.begin());
    Far::PrimvarRefiner primvars(refiner);
    Position *from = positions.data();
    for (int level = 1; level <= refiner.GetMaxLevel(); level++) {
        Position *to = from + refiner.GetLevel(level - 1).GetNumVertices();
        primvars.Interpolate(level, from, to);
        from = to;
    }
}

Calls prepare(bench_row row)
{
    static std::vector<Position> positions;
    if (row.rounds < 3 || row.kind == TRIANGLES || row.letters || row.tension != MOST_TENSION)
        return {};
    auto input = std::make_shared<Input>(row.kind);
    std::shared_ptr<Far::TopologyRefiner> refiner = refine_topology(*input, row.rounds);
    size_t faces = size_t(refiner->GetLevel(refiner->GetMaxLevel()).GetNumFaces());
    return {input->net.name,
            row.rounds,
            faces,
            {{"whole", [=] { interpolate(*refine_topology(*input, row.rounds), *input, positions); }},
             {"positions", [=] { interpolate(*refiner, *input, positions); }}}};
}

}

int main(int argc, char **argv) { return measure(argc, argv, ROW_COUNT, refine_row, prepare); }
