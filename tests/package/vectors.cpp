// Nets in std::vectors through gedrovit.hpp, and empty ones, whose data() may be null, through the functions of the archive.
// A line for each fault; the exit status is 1 if there is one.
#include <gedrovit.hpp>

#include <algorithm>
#include <array>
#include <cstdint>
#include <iostream>
#include <string>
#include <utility>
#include <variant>
#include <vector>

namespace {

int faults = 0;

void expect(const char *what, bool holds)
{
    if (!holds) {
        std::cout << what << '\n';
        faults++;
    }
}

const gedrovit::net square{{0, 0, 0, 16, 0, 0, 16, 16, 0, 0, 16, 0}, {0, 1, 2, 3}, {0, 0, 0, 0}};

// The flat functions get the address of a variable in the place of an empty table.
void empty_tables()
{
    gedrovit_tally tally = {7};
    std::int32_t coordinate = 7;
    std::uint32_t number = 7;
    std::uint8_t byte = 7;
    const gedrovit_sizes sizes = gedrovit_sizes_for(6, 0, 0, &byte, 0, 0);
    expect("empty: lengths", sizes.reason == 0 && sizes.out_vertices + sizes.out_faces + sizes.out_marks + sizes.work == 0);
    for (const bool with_letters : {false, true}) {
        const gedrovit_finding finding =
            gedrovit_check(6, &coordinate, 0, &number, 0, &byte, 0, &byte, 0, GEDROVIT_DEFAULT_TENSION, 0, 0, 0, with_letters, 0, &number, 0);
        const gedrovit_report report = gedrovit_refine(&tally, 6, &coordinate, 0, &number, 0, &byte, 0, &byte, 0, GEDROVIT_DEFAULT_TENSION, &coordinate, 0,
                                                       &number, 0, &byte, 0, with_letters, &byte, 0, &number, 0);
        expect("empty: accepted", finding.reason == 0 && report.reason == 0 && report.vertices + report.faces == 0);
    }
    expect("empty: untouched", tally.points == 7 && coordinate == 7 && number == 7 && byte == 7);
}

void empty_vectors()
{
    gedrovit::tally bill{};
    const auto result = gedrovit::refine(bill, 6, gedrovit::net());
    const auto *fine = std::get_if<gedrovit::net>(&result);
    expect("empty vectors: refined", fine != nullptr && fine->vertices.empty() && fine->faces.empty() && fine->marks.empty() && bill.points == 0);
    const auto lettered = gedrovit::refine_with_letters(bill, 6, gedrovit::net());
    const auto *none = std::get_if<gedrovit::net_with_letters>(&lettered);
    expect("empty vectors: letters", none != nullptr && none->refined.marks.empty() && none->letters.empty());
    expect("empty vectors: checked", !gedrovit::check(6, gedrovit::net()));
}

// refine and check refuse alike.
void refused(std::uint32_t rounds, const gedrovit::net &net, std::uint32_t reason, std::uint64_t place)
{
    gedrovit::tally bill{11};
    const auto result = gedrovit::refine(bill, rounds, net);
    const auto *refusal = std::get_if<gedrovit::refusal>(&result);
    const auto lettered = gedrovit::refine_with_letters(bill, rounds, net);
    const auto *same = std::get_if<gedrovit::refusal>(&lettered);
    expect("with letters", same != nullptr && refusal != nullptr && same->reason == refusal->reason && same->place == refusal->place);
    expect("a refused call adds nothing", bill.points == 11);
    const auto finding = gedrovit::check(rounds, net);
    expect(gedrovit_reason_text(reason), refusal != nullptr && refusal->reason == reason && refusal->place == place);
    expect(gedrovit_reason_text(reason), finding && finding->reason == reason && finding->place == place);
    expect("text of a refusal", finding && finding->text() == gedrovit_reason_text(reason));
}

void refusals()
{
    refused(7, square, GEDROVIT_TOO_MANY_ROUNDS, 0);
    gedrovit::net net = square;
    net.marks.pop_back();
    refused(1, net, GEDROVIT_INVALID_LENGTHS, 0);
    net = square;
    net.vertices[7] = GEDROVIT_MAX_COORDINATE + 1;
    refused(1, net, GEDROVIT_COORDINATE_OUT_OF_RANGE, 2);
    net.tension = GEDROVIT_MAX_TENSION + 1;
    refused(1, net, GEDROVIT_TENSION_OUT_OF_RANGE, 0);
    net.sides = {3};
    refused(1, net, GEDROVIT_INVALID_SIDE_COUNTS, 0);
}

// A net with side counts: zero rounds give the split net, which has none.
void other_faces()
{
    const gedrovit::net triangle{{0, 0, 0, 6, 0, 0, 0, 6, 0}, {0, 1, 2}, {1, 0, 0}, {3}};
    gedrovit::tally bill{};
    const auto result = gedrovit::refine(bill, 0, triangle);
    const auto *split = std::get_if<gedrovit::net>(&result);
    expect("triangle: points", split != nullptr && split->vertices == std::vector<std::int32_t>{0, 0, 0, 6, 0, 0, 0, 6, 0, 3, 0, 0, 3, 3, 0, 0, 3, 0, 2, 2, 0});
    expect("triangle: faces", split != nullptr && split->faces == std::vector<std::uint32_t>{0, 3, 6, 5, 1, 4, 6, 3, 2, 5, 6, 4});
    expect("triangle: marks", split != nullptr && split->marks == std::vector<std::uint8_t>{1, 0, 0, 0, 0, 0, 0} && split->sides.empty());
    expect("triangle: bill", bill.points == 4);
}

// The same net with letters as without, and a letter for each of its vertices.
void letters_of(const char *what, std::uint32_t rounds, const gedrovit::net &coarse, const std::string &due)
{
    gedrovit::tally bill{}, other{};
    const auto plain = std::get<gedrovit::net>(gedrovit::refine(bill, rounds, coarse));
    const auto fine = std::get<gedrovit::net_with_letters>(gedrovit::refine_with_letters(other, rounds, coarse));
    expect(what, fine.refined.vertices == plain.vertices && fine.refined.faces == plain.faces && fine.refined.marks == plain.marks);
    expect(what, std::string(fine.letters.begin(), fine.letters.end()) == due);
    expect(what, fine.letters.size() == plain.marks.size() && bill.points == other.points);
}

void letters()
{
    letters_of("letters: unmarked", 1, square, "VVVVAAAAE");
    gedrovit::net marked = square;
    marked.marks = {1, 1, 1, 0};
    letters_of("letters: marked", 1, marked, "VVVVMMBBE");
    marked.sides = {4};
    letters_of("letters: split", 0, marked, "VVVVSSSSS");
    expect("letters: text", gedrovit_letter_text(GEDROVIT_LETTER_CONTROL_VERTEX) == std::string("drawn"));
}

// Two calls on one record, the second up to the limit, and a third beyond it, which the check does not judge.
void bill_of_a_series()
{
    gedrovit::tally bill{GEDROVIT_MAX_TALLY - 10};
    expect("bill: first", std::holds_alternative<gedrovit::net>(gedrovit::refine(bill, 1, square)) && bill.points == GEDROVIT_MAX_TALLY - 5);
    expect("bill: second", std::holds_alternative<gedrovit::net>(gedrovit::refine(bill, 1, square)) && bill.points == GEDROVIT_MAX_TALLY);
    const auto third = gedrovit::refine(bill, 1, square);
    const auto *refusal = std::get_if<gedrovit::refusal>(&third);
    expect("bill: third", refusal != nullptr && refusal->reason == GEDROVIT_TALLY_LIMIT && refusal->place == 0 && bill.points == GEDROVIT_MAX_TALLY);
    expect("bill: check", !gedrovit::check(1, square));
}

// The point of side 0 after one step.
std::array<std::int32_t, 2> first_edge_point(const gedrovit::net &net)
{
    gedrovit::tally bill{};
    const auto fine = std::get<gedrovit::net>(gedrovit::refine(bill, 1, net));
    expect("bill of one step", bill.points == fine.marks.size() - net.marks.size());
    const std::size_t v = fine.faces[1];
    return {fine.vertices[3 * v], fine.vertices[3 * v + 1]};
}

// A net has the default tension, whichever way it is made, unless it is set; a refined net has the tension it was refined at.
void tensions()
{
    gedrovit::net assigned;
    assigned.vertices = square.vertices;
    assigned.faces = square.faces;
    assigned.marks = square.marks;
    expect("tension: by default", square.tension == GEDROVIT_DEFAULT_TENSION && assigned.tension == GEDROVIT_DEFAULT_TENSION);
    expect("tension: in the record", gedrovit::view(assigned).tension == GEDROVIT_DEFAULT_TENSION);
    expect("tension: points by default", first_edge_point(assigned) == std::array<std::int32_t, 2>{8, -2});
    const std::int32_t due[] = {0, 0, -1, -1, -2};
    for (std::uint32_t tension = 0; tension <= GEDROVIT_MAX_TENSION; tension++) {
        const gedrovit::net net{square.vertices, square.faces, square.marks, {}, tension};
        expect("tension: point", first_edge_point(net) == std::array<std::int32_t, 2>{8, due[tension]});
        letters_of("tension: letters", 1, net, "VVVVAAAAE");
        gedrovit::tally bill{};
        const auto once = std::get<gedrovit::net>(gedrovit::refine(bill, 1, net));
        const auto twice = std::get<gedrovit::net>(gedrovit::refine(bill, 2, net));
        expect("tension: of the refined net", once.tension == tension && twice.tension == tension);
        expect("tension: step by step", std::get<gedrovit::net>(gedrovit::refine(bill, 1, once)).vertices == twice.vertices);
    }
}

const gedrovit::net strip{{0, 0, 0, 16, 0, 0, 16, 16, 0, 0, 16, 0, 0, 0, 9, 16, 0, 9, 16, 16, 9, 0, 16, 9},
                          {0, 1, 5, 4, 1, 2, 6, 5, 2, 3, 7, 6}, {1, 0, 0, 1, 0, 0, 0, 0}};

// The same four points as a closed segment and as an open one, between two marks, are not shared.
void closed_and_open()
{
    expect("closed segment", first_edge_point(square) == std::array<std::int32_t, 2>{8, -2});
    expect("open segment", first_edge_point(strip) == std::array<std::int32_t, 2>{9, -1});
}

// The answer of the seam test: a number of edges, or a refusal.
void seam(const char *what, const gedrovit::net &a, std::uint32_t start_a, const gedrovit::net &b, std::uint32_t start_b, std::uint64_t edges)
{
    const auto answer = gedrovit::share_seam(a, start_a, b, start_b);
    const auto *given = std::get_if<std::uint64_t>(&answer);
    expect(what, given != nullptr && *given == edges);
}

void no_seam(const char *what, const gedrovit::net &a, std::uint32_t start_a, const gedrovit::net &b, std::uint32_t start_b, std::uint32_t reason,
             std::uint64_t place)
{
    const auto answer = gedrovit::share_seam(a, start_a, b, start_b);
    const auto *refusal = std::get_if<gedrovit::refusal>(&answer);
    expect(what, refusal != nullptr && refusal->reason == reason && refusal->place == place && refusal->text() == gedrovit_reason_text(reason));
}

// The net with its faces turned over, so that the boundary runs the other way.
gedrovit::net turned(gedrovit::net net)
{
    std::reverse(net.faces.begin(), net.faces.end());
    return net;
}

// An open segment of two nets is shared at equal tensions, and here at no others; the seam test tells both.
void seams()
{
    gedrovit::net one = strip, other = strip;
    for (std::size_t i = 0; i < one.vertices.size(); i++)
        other.vertices[i] = one.vertices[i] *= 16;
    for (std::size_t i = 12; i < other.vertices.size(); i++)
        other.vertices[i] += static_cast<std::int32_t>(7 * i);
    for (one.tension = 0; one.tension <= GEDROVIT_MAX_TENSION; one.tension++)
        for (other.tension = 0; other.tension <= GEDROVIT_MAX_TENSION; other.tension++) {
            const bool equal = one.tension == other.tension;
            expect("seam", (first_edge_point(one) == first_edge_point(other)) == equal);
            if (equal)
                seam("seam of equal tensions", one, 0, turned(other), 0, 3);
            else
                no_seam("seam of two tensions", one, 0, turned(other), 0, GEDROVIT_SEAM_MISMATCH, 0);
        }
}

// The work table is allocated for the larger net, whichever it is, and refusals come as they do from the call.
void seam_tests()
{
    const gedrovit::net other = turned(strip);
    gedrovit::net lone{{0, 0, 0, 16, 0, 0, 16, 16, 0, 0, 16, 0}, {3, 2, 1, 0}, {1, 0, 0, 1}};
    seam("a square behind the strip", strip, 0, lone, 0, 3);
    seam("a strip behind the square", turned(lone), 0, other, 0, 3);
    no_seam("against the sides", strip, 0, strip, 0, GEDROVIT_SEAM_MISMATCH, 1);
    no_seam("an unmarked start", strip, 1, other, 0, GEDROVIT_INVALID_START, 1);
    no_seam("a start beyond", strip, 0, other, 8, GEDROVIT_INVALID_START, 2);
    no_seam("empty vectors", gedrovit::net(), 0, gedrovit::net(), 0, GEDROVIT_INVALID_START, 1);
    lone.vertices[10]++;
    no_seam("the last step", strip, 0, lone, 0, GEDROVIT_SEAM_MISMATCH, 3);
    lone.marks.push_back(0);
    no_seam("lengths of the second net", strip, 0, lone, 0, GEDROVIT_INVALID_LENGTHS, 0);
    no_seam("lengths of the first net", lone, 0, strip, 0, GEDROVIT_INVALID_LENGTHS, 0);
    lone.sides = {5};
    no_seam("side counts of the second net", strip, 0, lone, 0, GEDROVIT_INVALID_SIDE_COUNTS, 0);
}

} // namespace

int main()
{
    empty_tables();
    empty_vectors();
    refusals();
    other_faces();
    letters();
    bill_of_a_series();
    tensions();
    closed_and_open();
    seams();
    seam_tests();
    return faults == 0 ? 0 : 1;
}
