// Measures the proved call and straightforward C++ on all rows.
#include "implementations.hpp"
#include "measure.hpp"

namespace {

std::string name(const char *net, bench_row row)
{
    std::string text = net;
    if (row.letters)
        text += ", letters";
    if (row.tension != MOST_TENSION)
        text += ", tension " + std::to_string(row.tension);
    return text;
}

}

int main(int argc, char **argv)
{
    Implementations implementations;
    auto prepare = [&](bench_row row) {
        BenchmarkNet made(row.kind);
        made.net.tension = row.tension;
        const bool with_letters = row.letters != 0;
        Calls calls = {name(made.name, row), row.rounds, made.refined_faces(row.rounds), {}};
        for (Implementation *one : implementations.all)
            calls.each.push_back({one->name, [=] { one->refine(made.net, row.rounds, with_letters); }});
        return calls;
    };
    return measure(argc, argv, ROW_COUNT, refine_row, prepare);
}
