// The header in C++, as it is: a batch from fresh to a yes, and to a no. One wire is sealed, another is its public double.
#include <array>
#include <cstdio>
#include <cstdlib>
#include <string>
#include <vector>
#include "sfr.h"

// A list as C lends it: an empty vector's data() may be NULL.
#define LENT(list) (list).data(), (list).size()

using words = std::vector<std::uint32_t>;
using bytes = std::vector<std::uint8_t>;

static void accepted(std::uint32_t number)
{
    if (number == 0)
        return;
    std::printf("refused: %u, %s\n", static_cast<unsigned>(number), sfr_meaning(number));
    std::exit(1);
}

template <class Answer>
static Answer go_on(Answer answer)
{
    accepted(answer.number);
    return answer;
}

// The check's answer where the double that is set is `twice`, and the trace seals `weight`.
static std::uint32_t batch(std::uint32_t weight, std::uint32_t twice)
{
    const std::array<std::uint32_t, SFR_PARAMS_WORDS(1, 1)> params = {{0, SFR_PRIME - 1, 5}};
    words slots(4), uses(4), queries(SFR_QUERIES_WORDS(1, 1)), equations(SFR_EQUATION_WORDS(2)), none;
    const std::string label = "batch 7";
    const bytes text(label.begin(), label.end());

    auto rel = go_on(sfr_new_relation(1, LENT(slots), LENT(uses))).relation;
    const auto wires = go_on(sfr_allocate_vars(rel, LENT(slots), 2));
    const std::array<std::uint32_t, 1> sealed = {{wires.first}}, doubled = {{wires.first + 1}}, value = {{twice}};
    rel = wires.relation;
    accepted(sfr_set_vars(rel, LENT(slots), LENT(doubled), LENT(value)).number);
    accepted(sfr_set_vars(rel, LENT(slots), LENT(none), LENT(none)).number);
    rel = go_on(sfr_allocate_permutation(rel, LENT(slots), LENT(queries), LENT(uses), LENT(sealed))).relation;
    const std::array<sfr_weighted, 2> terms = {{{sealed[0], 2}, {doubled[0], SFR_PRIME - 1}}};
    rel = go_on(sfr_add_equation(rel, LENT(equations), LENT(terms), 0)).relation;

    words publics(SFR_PUBLICS_WORDS(rel.vars)), scratch(rel.vars), trace(SFR_TRACE_WORDS(1, 1));
    const auto ins = go_on(sfr_compile(rel, LENT(text), LENT(slots), LENT(queries), LENT(equations), LENT(uses),
                                       LENT(publics), LENT(scratch))).instance;
    const std::array<std::uint32_t, 1> input = {{weight}};
    const auto rec = go_on(sfr_evaluate_step({1, 0}, LENT(trace), LENT(input), 1, LENT(params))).trace;

    bytes sfri(SFR_SFRI_BYTES(text.size(), 1, ins.publics, ins.queries, ins.words)), sfrw(SFR_SFRW_BYTES(1, rec.steps));
    accepted(sfr_instance_to_bytes(ins, LENT(text), LENT(publics), LENT(queries), LENT(equations), LENT(sfri)).number);
    accepted(sfr_witness_to_bytes(rec, LENT(trace), LENT(sfrw)).number);

    const auto read = go_on(sfr_strict_instance_from_bytes(1, LENT(sfri), LENT(publics), LENT(queries), LENT(equations),
                                                           LENT(scratch)));
    const auto steps = go_on(sfr_witness_from_bytes(1, LENT(sfrw), LENT(trace))).trace.steps;
    const std::string back(sfri.begin() + static_cast<std::ptrdiff_t>(read.label.at),
                           sfri.begin() + static_cast<std::ptrdiff_t>(read.label.at + read.label.len));
    if (back != label)
        std::exit(1);
    return sfr_is_witness_valid(read.instance, sfri.data() + read.label.at, read.label.len, LENT(publics), LENT(queries),
                                LENT(equations), steps, LENT(trace), 1, LENT(params), LENT(scratch));
}

// The part of 11 that a label in Latin-1 is.
static sfr_part latin1()
{
    const bytes label = {0xE9};
    return sfr_unsound_part({1, 1, 0, 0, 0, 0}, LENT(label), nullptr, 0, nullptr, 0, nullptr, 0);
}

int main()
{
    const std::uint32_t yes = batch(3, 6), no = batch(3, 7);
    if (yes != 0 || no != 35 || latin1() != SFR_PART_LABEL) {
        std::printf("batch: 3 doubled is 6: %u, is 7: %u\n", static_cast<unsigned>(yes), static_cast<unsigned>(no));
        return 1;
    }
    std::printf("a batch from fresh to %s, and to '%s'\n", sfr_meaning(yes), sfr_meaning(no));
    return 0;
}
