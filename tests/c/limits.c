/* Limits and sizes: the macros say where the library's answers change. */
#include <stdio.h>
#include <string.h>
#include "sfr.h"

#define LENT(list) (list), sizeof(list) / sizeof *(list)
#define TEXT(x) #x
#define VALUE_TEXT(x) TEXT(x)

static int checks, faults;

static void is(const char *what, unsigned long long got, unsigned long long expected)
{
    checks++;
    if (got != expected) {
        printf("limits: %s: %llu and not %llu\n", what, got, expected);
        faults++;
    }
}

static void limits(void)
{
    static uint32_t slots[4], uses[4];
    const char *version = VALUE_TEXT(SFR_VERSION_MAJOR) "." VALUE_TEXT(SFR_VERSION_MINOR) "." VALUE_TEXT(SFR_VERSION_PATCH);
    is("the version's parts", strcmp(SFR_VERSION, version) != 0, 0);

    is("a width", sfr_new_relation(SFR_MAX_WIDTH, LENT(slots), LENT(uses)).number, 0);
    is("a width too many", sfr_new_relation(SFR_MAX_WIDTH + 1, LENT(slots), LENT(uses)).number, 1);
    const sfr_relation rel = sfr_new_relation(1, LENT(slots), LENT(uses)).relation;
    is("2^30 wires", sfr_allocate_vars(rel, LENT(slots), SFR_MAX_COUNT - 1).number, 6);
    is("a wire too many", sfr_allocate_vars(rel, LENT(slots), SFR_MAX_COUNT).number, 5);
    is("the last wire", sfr_set_var(rel, LENT(slots), SFR_MAX_COUNT - 1, 0).number, 7);
    is("no wire", sfr_set_var(rel, LENT(slots), SFR_MAX_COUNT, 0).number, 3);
    is("the last unit", sfr_set_var(rel, LENT(slots), 0, SFR_PRIME - 1).number, 8);
    is("no unit", sfr_set_var(rel, LENT(slots), 0, SFR_PRIME).number, 4);
    is("a sum that is p", sfr_add_unit(SFR_PRIME - 1, 1), 0);
    is("a slot without value", (sfr_allocate_vars(rel, LENT(slots), 1).number == 0) * (unsigned long long)slots[1],
       SFR_UNASSIGNED);

    sfr_var_allocator allocator = {0, 0};
    for (uint32_t i = 0; i < SFR_MAX_RELATIONS; i++) {
        const sfr_shared_answer opened = sfr_with_allocator(allocator, 1, 0, LENT(slots), LENT(uses));
        is("an opening", opened.number, 0);
        allocator = opened.allocator;
    }
    is("an opening too many", sfr_with_allocator(allocator, 1, 0, LENT(slots), LENT(uses)).number, 42);
}

static void tickets(void)
{
    uint32_t slots[4], uses[4];
    const uint8_t text[] = "         0            0\n         0           24\n";
    const sfr_relation rel = sfr_new_relation(1, LENT(slots), LENT(uses)).relation;
    is("two lines", sfr_set_tickets(rel, LENT(slots), text, 2 * SFR_TICKET_LINE).accepted, 2);
    is("a line less a byte", sfr_set_tickets(rel, LENT(slots), text, SFR_TICKET_LINE - 1).number, 40);
}

/* One step of width 3 under parameters of that many rounds, of SFR_PARAMS_WORDS and `more` words. */
static uint32_t permuted(uint32_t rounds, size_t more)
{
    static uint32_t params[SFR_PARAMS_WORDS(3, SFR_MAX_ROUNDS + 1) + 1];
    uint32_t state[3] = {1, 2, 3};
    return sfr_permute(3, rounds, params, SFR_PARAMS_WORDS(3, rounds) + more, LENT(state));
}

/* Stores as long as the macros say, and a word or byte less. */
static void sizes(void)
{
    is("parameters", permuted(SFR_MAX_ROUNDS, 0), 0);
    is("parameters, a word more", permuted(2, 1), 17);
    is("parameters, a round too many", permuted(SFR_MAX_ROUNDS + 1, 0), 17);

    enum { WIDTH = 3, QUERIES = 2, WIRES = 1 + WIDTH + WIDTH * QUERIES, TERMS = 2, LABEL = 5 };
    uint32_t slots[WIRES], uses[WIRES], scratch[WIRES], queries[SFR_QUERIES_WORDS(WIDTH, QUERIES)];
    uint32_t equations[SFR_EQUATION_WORDS(TERMS)], publics[SFR_PUBLICS_WORDS(2)];
    const uint32_t input[WIDTH] = {1, 2, 3};
    const sfr_weighted terms[TERMS] = {{1, 1}, {2, 1}};
    const uint8_t label[LABEL] = {'l', 'a', 'b', 'e', 'l'};
    sfr_relation rel = sfr_new_relation(WIDTH, LENT(slots), LENT(uses)).relation;
    rel = sfr_allocate_vars(rel, LENT(slots), WIDTH).relation;
    is("a set", sfr_set_var(rel, LENT(slots), 1, 4).number, 0);
    for (int i = 0; i < QUERIES; i++) {
        is("queries, a word less",
           sfr_allocate_permutation(rel, LENT(slots), queries, SFR_QUERIES_WORDS(WIDTH, i + 1) - 1, LENT(uses),
                                    LENT(input)).number, 10);
        rel = sfr_allocate_permutation(rel, LENT(slots), queries, SFR_QUERIES_WORDS(WIDTH, i + 1), LENT(uses),
                                       LENT(input)).relation;
    }
    is("queries", rel.queries, QUERIES);
    is("an equation, a word less",
       sfr_add_equation(rel, equations, SFR_EQUATION_WORDS(TERMS) - 1, LENT(terms), 0).number, 10);
    rel = sfr_add_equation(rel, LENT(equations), LENT(terms), 0).relation;
    is("an equation's words", rel.words, SFR_EQUATION_WORDS(TERMS));
    is("publics, a word less", sfr_compile(rel, LENT(label), LENT(slots), LENT(queries), LENT(equations), LENT(uses), publics,
                                           SFR_PUBLICS_WORDS(2) - 1, LENT(scratch)).number, 10);
    const sfr_instance ins = sfr_compile(rel, LENT(label), LENT(slots), LENT(queries), LENT(equations), LENT(uses),
                                         LENT(publics), LENT(scratch)).instance;
    is("publics", ins.publics, 2);

    uint8_t sfri[SFR_SFRI_BYTES(LABEL, WIDTH, 2, QUERIES, SFR_EQUATION_WORDS(TERMS))];
    is("SFRI, a byte less", sfr_instance_to_bytes(ins, LENT(label), LENT(publics), LENT(queries), LENT(equations), sfri,
                                                  sizeof sfri - 1).number, 10);
    is("SFRI", sfr_instance_to_bytes(ins, LENT(label), LENT(publics), LENT(queries), LENT(equations), LENT(sfri)).len,
       sizeof sfri);

    uint32_t trace[SFR_TRACE_WORDS(WIDTH, QUERIES)];
    uint8_t sfrw[SFR_SFRW_BYTES(WIDTH, QUERIES)];
    sfr_trace rec = {WIDTH, 0};
    for (int i = 0; i < QUERIES; i++) {
        is("a trace, a word less",
           sfr_append_step(rec, trace, SFR_TRACE_WORDS(WIDTH, i + 1) - 1, LENT(input), LENT(input)).number, 10);
        rec = sfr_append_step(rec, trace, SFR_TRACE_WORDS(WIDTH, i + 1), LENT(input), LENT(input)).trace;
    }
    is("SFRW, a byte less", sfr_witness_to_bytes(rec, LENT(trace), sfrw, sizeof sfrw - 1).number, 10);
    is("SFRW", sfr_witness_to_bytes(rec, LENT(trace), LENT(sfrw)).len, sizeof sfrw);

    const sfr_instance none = {1, 0, 0, 0, 0, 0};
    is("SFRI of nothing", sfr_instance_to_bytes(none, NULL, 0, NULL, 0, NULL, 0, NULL, 0, LENT(sfri)).len, SFR_SFRI_FIXED);
    const sfr_trace empty = {1, 0};
    is("SFRW of nothing", sfr_witness_to_bytes(empty, NULL, 0, LENT(sfrw)).len, SFR_SFRW_FIXED);
}

int main(void)
{
    limits();
    tickets();
    sizes();
    if (faults == 0)
        printf("%d answers at limits and sizes\n", checks);
    return faults != 0;
}
