// Measures the check alone, of the proved archive and of straightforward C++.
#include "implementations.hpp"
#include "measure.hpp"

int main(int argc, char **argv)
{
    Implementations implementations;
    Implementation &product = implementations.product, &straight = implementations.rebuilt;
    auto prepare = [&](bench_row row) {
        BenchmarkNet made(row.kind);
        const uint32_t rounds = row.rounds, reason = product.check(made.net, rounds).reason;
        std::string name = made.name;
        if (reason != 0)
            name += " (" + std::to_string(reason) + ")";
        Calls calls = {name, rounds, made.refined_faces(rounds), {}};
        calls.each.push_back({product.name, [&product, made, rounds] { product.check(made.net, rounds); }});
        calls.each.push_back({"check", [&straight, made, rounds] { straight.check(made.net, rounds); }});
        return calls;
    };
    return measure(argc, argv, CHECK_ROW_COUNT, check_row, prepare);
}
