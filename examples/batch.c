/* A batch of premix, weighed by hopper, sack included, and by hand, in steps of 50 g. The two weights stay hidden behind
 * their seals, the sack's is public, from a weigh ticket, and an equation says that they agree: by hand + sack = hopper.
 * The sack was put on the scale twice, and the second reading is a repeat. The recipe's draft sealed the sack too, and had
 * an equation without it: both lines are struck.
 * From the repository's root:
 *
 *   cc -Iinclude examples/batch.c crates/sfr/out/libsfr.a -o out/batch && out/batch */
#include <stdio.h>
#include <stdlib.h>
#include "sfr.h"

#define LENT(list) (list), sizeof(list) / sizeof *(list)

static const uint8_t label[] = {'b', 'a', 't', 'c', 'h', ' ', '7'};
static const uint32_t params[] = {0, SFR_PRIME - 1, 5}; /* the recipe: one round that makes x to 5(x - 1)^7 */

static void accepted(uint32_t number)
{
    if (number != 0) {
        printf("refused: %u, %s\n", (unsigned)number, sfr_meaning(number));
        exit(1);
    }
}

static sfr_relation go_on(sfr_relation_answer answer)
{
    accepted(answer.number);
    return answer.relation;
}

/* The check's answer on the files of a batch of these two weights, in this order. */
static uint32_t batch(const uint32_t weights[2])
{
    enum { HOPPER = 1, HAND, SACK }; /* wire 0 is there from the start */
    uint32_t slots[7], uses[7], scratch[7], queries[SFR_QUERIES_WORDS(1, 3)];
    uint32_t equations[SFR_EQUATION_WORDS(2) + SFR_EQUATION_WORDS(3)], publics[SFR_PUBLICS_WORDS(2)];
    uint32_t trace[SFR_TRACE_WORDS(1, 2)];
    uint8_t sfri[SFR_SFRI_BYTES(sizeof label, 1, 2, 2, SFR_EQUATION_WORDS(3))], sfrw[SFR_SFRW_BYTES(1, 2)];
    char ticket[2 * SFR_TICKET_LINE + 1];

    sfr_relation rel = go_on(sfr_new_relation(1, LENT(slots), LENT(uses)));
    rel = go_on(sfr_allocate_vars(rel, LENT(slots), 3));
    snprintf(ticket, sizeof ticket, "%10d %12d\n%10d %12d\n", SACK, 50, SACK, 55); /* both are 1 step */
    sfr_ticket_tally tally = sfr_set_tickets(rel, LENT(slots), (const uint8_t *)ticket, 2 * SFR_TICKET_LINE);
    accepted(tally.number);
    printf("ticket: %zu readings, %zu repeated\n", tally.accepted, tally.accepted - tally.fresh);
    const uint32_t sealed[] = {HOPPER, SACK, HAND};
    for (int i = 0; i < 3; i++)
        rel = go_on(sfr_allocate_permutation(rel, LENT(slots), LENT(queries), LENT(uses), &sealed[i], 1));
    const sfr_weighted terms[] = {{HAND, 1}, {HOPPER, SFR_PRIME - 1}, {SACK, 1}};
    rel = go_on(sfr_add_equation(rel, LENT(equations), terms, 2, 0));
    rel = go_on(sfr_add_equation(rel, LENT(equations), LENT(terms), 0));
    rel = go_on(sfr_withdraw_query(rel, LENT(slots), LENT(queries), LENT(uses), 1)); /* the sack's */
    rel = go_on(sfr_withdraw_equation(rel, LENT(equations), 0));                     /* the one of two terms */
    printf("struck: %u queries and %u equation remain, the sack in %u cells\n", (unsigned)rel.queries,
           (unsigned)rel.equations, (unsigned)uses[SACK]);
    sfr_instance_answer gate = sfr_compile(rel, LENT(label), LENT(slots), LENT(queries), LENT(equations), LENT(uses),
                                           LENT(publics), LENT(scratch));
    accepted(gate.number);

    sfr_trace_answer steps = {0, {1, 0}};
    for (int i = 0; i < 2; i++) {
        steps = sfr_evaluate_step(steps.trace, LENT(trace), &weights[i], 1, 1, LENT(params));
        accepted(steps.number);
    }

    sfr_written instance = sfr_instance_to_bytes(gate.instance, LENT(label), LENT(publics), LENT(queries),
                                                 LENT(equations), LENT(sfri));
    accepted(instance.number);
    sfr_written witness = sfr_witness_to_bytes(steps.trace, LENT(trace), LENT(sfrw));
    accepted(witness.number);

    /* From here on only the bytes count. Provers insist on wire 0, listed with value 0. */
    sfr_instance_read read = sfr_strict_instance_from_bytes(1, sfri, instance.len, LENT(publics), LENT(queries),
                                                            LENT(equations), LENT(scratch));
    accepted(read.number);
    steps = sfr_witness_from_bytes(1, sfrw, witness.len, LENT(trace));
    accepted(steps.number);
    return sfr_is_witness_valid(read.instance, sfri + read.label.at, read.label.len, LENT(publics), LENT(queries),
                                LENT(equations), steps.trace.steps, LENT(trace), 1, LENT(params), LENT(scratch));
}

int main(void)
{
    printf("hopper 3, sack 1, by hand 2: %u\n", (unsigned)batch((uint32_t[]){3, 2})); /* yes */
    printf("hopper 3, sack 1, by hand 3: %u\n", (unsigned)batch((uint32_t[]){3, 3})); /* no: the sum isn't the image */
    const uint8_t edited[] = {0xED, 0xA0, 0x80, ' ', 'b', 'a', 't', 'c', 'h', ' ', '7'}; /* from the recipe editor */
    sfr_utf8_scan scan = sfr_scan_utf8(LENT(edited));
    printf("label ED A0 80 ..: passes %s, place %zu\n", scan.passes ? "true" : "false", scan.place); /* no A0 after ED */
    return 0;
}
