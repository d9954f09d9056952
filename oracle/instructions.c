/* Each call on files of a batch once, for oracle/instructions to count what it takes: items as the argument says. An item is
 * a query of width 8, a public and an equation of two terms; of a label that is scanned 64 bytes; of tickets a line; on a
 * shared allocator a mint, and of its gate what that makes; of the first one's withdrawal a query or an equation that is
 * held. */
#include <stdio.h>
#include <stdlib.h>
#include <string.h>

#include "sfr.h"

enum { WIDTH = 8, LABEL = 1 };
static const uint32_t PRIME = 2013265921;
static const uint8_t label[LABEL] = {'b'};

static void *lent(size_t len, size_t size) {
    void *store = calloc(len, size);
    if (!store) exit(2);
    return store;
}

static void accepted(const char *call, uint32_t number) {
    if (number) {
        printf("%s: %u\n", call, number);
        exit(1);
    }
}

/* sfr_scan_utf8 under a name of its own for each kind of text. They use different halves of the answer: of two functions
 * alike the compiler makes one. */
__attribute__((noinline)) static bool scan_ascii(const uint8_t *text, size_t len) { return sfr_scan_utf8(text, len).passes; }
__attribute__((noinline)) static size_t scan_two_bytes(const uint8_t *text, size_t len) { return sfr_scan_utf8(text, len).place; }

/* A label of ASCII, and one of characters of two bytes. */
static void labels(size_t items) {
    const size_t len = 64 * items;
    uint8_t *text = lent(len, 1);
    memset(text, 'b', len);
    accepted("scan of ASCII", !scan_ascii(text, len));
    for (size_t i = 0; i < len; i += 2) memcpy(text + i, "\xC3\xA9", 2);
    accepted("scan of two bytes", scan_two_bytes(text, len) != len);
}

/* The mints of a relation on an allocator for several, and its gate: wire 0 alone is public. */
static void shared(size_t items) {
    const size_t vars = 1 + WIDTH + WIDTH * items, cells = 2 * WIDTH * items;
    uint32_t *slots = lent(vars, 4), *uses = lent(vars, 4), *scratch = lent(vars, 4), *queries = lent(cells, 4);
    uint32_t publics[2], inputs[WIDTH];
    const sfr_var_allocator none = {0, 0};
    sfr_shared_answer at = sfr_with_allocator(none, WIDTH, UINT32_MAX, slots, vars, uses, vars);
    accepted("opening", at.number);
    at = sfr_allocate_vars_on(at.allocator, 0, at.relation, slots, vars, WIDTH);
    accepted("shared allocate", at.number);
    for (uint32_t i = 0; i < WIDTH; i++) inputs[i] = at.first + i;
    for (size_t i = 0; i < items; i++) {
        at = sfr_allocate_permutation_on(at.allocator, 0, at.relation, slots, vars, queries, cells, uses, vars, inputs, WIDTH);
        accepted("shared mint", at.number);
    }
    accepted("shared gate", sfr_compile_on(at.allocator, 0, at.relation, label, LABEL, slots, vars, queries, cells, inputs, 0,
                                           uses, vars, publics, 2, scratch, vars).number);
}

int main(int argc, char **argv) {
    const size_t items = argc == 2 ? strtoul(argv[1], NULL, 10) : 1000;
    const size_t vars = 1 + WIDTH + WIDTH * items, cells = 2 * WIDTH * items, words = 6 * items, pairs = 2 * (items + 1);
    const size_t sfri_len = 33 + LABEL + 4 * (pairs + cells + words), sfrw_len = 17 + 4 * cells;
    uint32_t *slots = lent(vars, 4), *uses = lent(vars, 4), *scratch = lent(vars, 4), *trace = lent(cells, 4);
    uint32_t *publics = lent(pairs, 4), *queries = lent(cells, 4), *equations = lent(words, 4);
    uint8_t *sfri = lent(sfri_len, 1), *sfrw = lent(sfrw_len, 1), *text = lent(items, 24);

    /* Every wire that is used carries 5, and no round changes it. */
    sfr_relation_answer at = sfr_new_relation(WIDTH, slots, vars, uses, vars);
    accepted("fresh", at.number);
    at = sfr_allocate_vars(at.relation, slots, vars, WIDTH);
    accepted("allocate", at.number);
    uint32_t inputs[WIDTH], params[WIDTH * WIDTH] = {0};
    for (uint32_t i = 0; i < WIDTH; i++) inputs[i] = at.first + i;
    for (size_t i = 0; i < cells; i++) trace[i] = 5;
    for (size_t i = 0; i < items; i++) {
        at = sfr_allocate_permutation(at.relation, slots, vars, queries, cells, uses, vars, inputs, WIDTH);
        accepted("mint", at.number);
        const sfr_weighted terms[] = {{at.first, 1}, {at.first + 1, PRIME - 1}};
        accepted("set", sfr_set_var(at.relation, slots, vars, at.first, 5).number);
        at = sfr_add_equation(at.relation, equations, words, terms, 2, 0);
        accepted("equation", at.number);
    }

    char line[25];
    snprintf(line, sizeof line, "%10u %12u\n", 1 + WIDTH, 250u); /* the first set wire, 5 steps again */
    for (size_t i = 0; i < items; i++) memcpy(text + 24 * i, line, 24);
    accepted("tickets", sfr_set_tickets(at.relation, slots, vars, text, 24 * items).number);

    const sfr_instance ins = sfr_compile(at.relation, label, LABEL, slots, vars, queries, cells, equations, words, uses, vars,
                                         publics, pairs, scratch, vars).instance;
    accepted("write SFRI", sfr_instance_to_bytes(ins, label, LABEL, publics, pairs, queries, cells, equations, words, sfri,
                                                 sfri_len).number);
    accepted("read SFRI", sfr_instance_from_bytes(WIDTH, sfri, sfri_len, publics, pairs, queries, cells, equations, words,
                                                  scratch, vars).number);
    accepted("strict read SFRI", sfr_strict_instance_from_bytes(WIDTH, sfri, sfri_len, publics, pairs, queries, cells, equations,
                                                                words, scratch, vars).number);
    const sfr_trace steps = {WIDTH, (uint32_t)items};
    accepted("write SFRW", sfr_witness_to_bytes(steps, trace, cells, sfrw, sfrw_len).number);
    accepted("read SFRW", sfr_witness_from_bytes(WIDTH, sfrw, sfrw_len, trace, cells).number);
    accepted("check", sfr_is_witness_valid(ins, label, LABEL, publics, pairs, queries, cells, equations, words, steps.steps, trace,
                                           cells, 0, params, WIDTH * WIDTH, scratch, vars));

    at = sfr_withdraw_query(at.relation, slots, vars, queries, cells, uses, vars, 0);
    accepted("withdraw query", at.number);
    accepted("withdraw equation", sfr_withdraw_equation(at.relation, equations, words, 0).number);
    labels(items);
    shared(items);
    return 0;
}
