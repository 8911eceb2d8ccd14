// Compares the proved calls, the check and the refining one, with both forms of the straightforward one, at every tension, without letters and with them: the
// nets of the benchmark and small nets of every kind.
// The exit status is 1 on the first difference.
#include "implementations.hpp"
#include "samples.hpp"

#include <cstdio>
#include <cstdlib>
#include <set>
#include <string>

namespace {

constexpr int SAMPLES = 1000;
constexpr uint32_t MOST_ROUNDS = 6;

bool same(Verdict a, Verdict b) { return a.reason == b.reason && a.place == b.place; }

// Whether both calls give this answer, with the net that was expected, and with its letters where it is to.
bool agrees(Implementation &one, const Net &net, uint32_t rounds, bool with_letters, const Straight &expected, Verdict due)
{
    return same(one.check(net, rounds), due) && same(one.refine(net, rounds, with_letters), due) &&
           (due.reason != 0 || (one.gave(expected.refined) && (!with_letters || one.gave_letters(expected.letters))));
}

// The reason that all implementations give; ends the program if they differ. What is expected is left by the implementation that is compared to itself.
uint32_t agreed(Implementations &implementations, Straight &expected, const Net &net, uint32_t rounds, const std::string &name)
{
    Verdict due = expected.refine(net, rounds, true);
    for (Implementation *one : implementations.all)
        for (bool with_letters : {false, true})
            if (!agrees(*one, net, rounds, with_letters, expected, due)) {
                std::fprintf(stderr, "%s, %u rounds, %s letters: %s differs from what is expected (reason %u, place %llu)\n", name.c_str(), rounds,
                             with_letters ? "with" : "without", one->name, due.reason, static_cast<unsigned long long>(due.place));
                std::exit(1);
            }
    return due.reason;
}

// The same at every tension, which is not to change the reason, and above them all, where it is to be 16.
uint32_t agreed_throughout(Implementations &implementations, Straight &expected, Net net, uint32_t rounds, const std::string &name)
{
    auto at = [&](uint32_t tension) {
        net.tension = tension;
        return agreed(implementations, expected, net, rounds, name + ", tension " + std::to_string(tension));
    };
    auto demand = [&](uint32_t reason, uint32_t due) {
        if (reason == due)
            return;
        std::fprintf(stderr, "%s, %u rounds, tension %u: reason %u in place of %u\n", name.c_str(), rounds, net.tension, reason, due);
        std::exit(1);
    };
    demand(at(MOST_TENSION + 1), 16);
    const uint32_t reason = at(0);
    for (uint32_t t = 1; t <= MOST_TENSION; t++)
        demand(at(t), reason);
    return reason;
}

// All numbers of rounds that the limit on refined faces allows; ends the program if the net is refused.
void compare(Implementations &implementations, Straight &expected, bench_kind kind)
{
    BenchmarkNet made(kind);
    for (uint32_t k = 0; k <= MOST_ROUNDS && made.refined_faces(k) <= MOST_REFINED; k++)
        if (agreed_throughout(implementations, expected, made.net, k, made.name) != 0) {
            std::fprintf(stderr, "%s: refused\n", made.name);
            std::exit(1);
        }
}

// A net that is only checked.
void compare_check(Implementations &implementations, Straight &expected, bench_kind kind)
{
    BenchmarkNet made(kind);
    agreed(implementations, expected, made.net, 0, made.name);
}

// What the samples have shown.
struct Coverage {
    using Counts = std::array<int, 13>;
    Counts reasons = {}, rings = {}, fans = {}, sides = {};
    std::set<char> letters;
    int marked = 0;

    void add(const Net &net, uint32_t reason, const std::vector<char> &given)
    {
        reasons[reason]++;
        if (reason != 0)
            return;
        letters.insert(given.begin(), given.end());
        if (net.sides.empty())
            add_vertices(net);
        for (uint8_t n : net.sides)
            sides[n]++;
        marked += std::count(net.marks.begin(), net.marks.end(), 1) > 0;
    }

    bool is_whole() const
    {
        auto seen = [](const Counts &counts, int low, int high) {
            return std::all_of(counts.begin() + low, counts.begin() + high + 1, [](int count) { return count > 0; });
        };
        return seen(reasons, 5, 12) && seen(rings, 3, 8) && seen(fans, 1, 6) && seen(sides, 3, 8) && letters.size() == 8 && marked > 0;
    }

private:
    void add_vertices(const Net &net)
    {
        straight::QuadAdjacency adjacency;
        adjacency.build(net);
        for (uint32_t v = 0; v < net.points.size(); v++)
            (adjacency.is_boundary(v) ? fans : rings)[adjacency.face_count(v)]++;
    }
};

}

int main()
{
    Implementations implementations;
    Straight expected("expected", false);
    for (int kind = 0; kind < KIND_COUNT; kind++)
        (kind < REFINED_COUNT ? compare : compare_check)(implementations, expected, static_cast<bench_kind>(kind));
    Coverage coverage;
    samples::Generator generator(1);
    for (int i = 0; i < SAMPLES; i++) {
        samples::Sample sample = generator.draw();
        uint32_t reason = agreed_throughout(implementations, expected, sample.net, sample.rounds, "sample " + std::to_string(i));
        coverage.add(sample.net, reason, expected.letters);
    }
    if (!coverage.is_whole())
        return std::fprintf(stderr, "the samples do not show every refusal, ring, fan, side count and letter\n"), 1;
    std::printf("%d nets after every round, and %d small nets: %d refined (rings of 3 to 8, fans of 1 to 6, faces of 3 to 8 sides, every letter), %d refused "
                "(5 to 12); all at tensions 0 to 4, and refused at 5 (16); the check of these, and of %d more nets\n",
                REFINED_COUNT, SAMPLES, coverage.reasons[0], SAMPLES - coverage.reasons[0], KIND_COUNT - REFINED_COUNT);
}
