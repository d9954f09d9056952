/* Two mixers on one allocator, in steps of 50 g. The premix mixer seals what its hopper weighs; the finishing mixer, of
 * width 2, weighs by hand what comes out, seals that together with the hopper's reading, and reads the sack's ticket, which
 * is public to both. The premix mixer reads the same ticket again, which is a repeat. Its equation says hopper - sack = 2,
 * the order; the finishing mixer's hand + sack = hopper. From the repository's root:
 *
 *   cc -Iinclude examples/mixers.c crates/sfr/out/libsfr.a -o out/mixers && out/mixers */
#include <stdio.h>
#include <stdlib.h>
#include "sfr.h"

#define LENT(list) (list), sizeof(list) / sizeof *(list)
#define ON(p, m) (p)->allocator, (m)->index, (m)->rel

static const uint8_t label[] = {'o', 'r', 'd', 'e', 'r', ' ', '2'};

/* What the mixers share. */
typedef struct {
    sfr_var_allocator allocator;
    uint32_t slots[7];
} plant;

/* A mixer's number, record and own stores, and its recipe: one round. */
typedef struct {
    uint32_t index;
    sfr_shared_relation rel;
    uint32_t queries[4], uses[7], equations[8];
    const uint32_t *params;
    size_t params_len;
} mixer;

static void accepted(uint32_t number)
{
    if (number != 0) {
        printf("refused: %u, %s\n", (unsigned)number, sfr_meaning(number));
        exit(1);
    }
}

/* Keeps both records; what is opened, allocated or minted. */
static uint32_t go_on(plant *p, mixer *m, sfr_shared_answer answer)
{
    accepted(answer.number);
    p->allocator = answer.allocator;
    m->rel = answer.relation;
    return answer.first;
}

/* Reads a ticket line, and tells how many readings were repeats. */
static void read_ticket(plant *p, const mixer *m, const char *name, const char *line)
{
    sfr_ticket_tally tally = sfr_set_tickets_on(ON(p, m), LENT(p->slots), (const uint8_t *)line, 24);
    accepted(tally.number);
    printf("ticket, read by %s: %zu repeated\n", name, tally.accepted - tally.fresh);
}

/* The check's answer on the files of a mixer's batch whose one step has these inputs. */
static uint32_t check(const plant *p, const mixer *m, const uint32_t *inputs)
{
    uint32_t queries[4], equations[8], publics[4], trace[4], scratch[7];
    uint8_t sfri[128], sfrw[64];
    const uint32_t width = m->rel.width;

    sfr_instance_answer gate = sfr_compile_on(ON(p, m), LENT(label), LENT(p->slots), LENT(m->queries),
                                              LENT(m->equations), LENT(m->uses), LENT(publics), LENT(scratch));
    accepted(gate.number);
    sfr_trace_answer steps = sfr_evaluate_step((sfr_trace){width, 0}, LENT(trace), inputs, width, 1, m->params,
                                               m->params_len);
    accepted(steps.number);

    sfr_written instance = sfr_instance_to_bytes(gate.instance, LENT(label), LENT(publics), LENT(m->queries),
                                                 LENT(m->equations), LENT(sfri));
    accepted(instance.number);
    sfr_written witness = sfr_witness_to_bytes(steps.trace, LENT(trace), LENT(sfrw));
    accepted(witness.number);

    /* From here on only the bytes count. */
    sfr_instance_read read = sfr_instance_from_bytes(width, sfri, instance.len, LENT(publics), LENT(queries),
                                                     LENT(equations), LENT(scratch));
    accepted(read.number);
    steps = sfr_witness_from_bytes(width, sfrw, witness.len, LENT(trace));
    accepted(steps.number);
    return sfr_is_witness_valid(read.instance, sfri + read.label.at, read.label.len, LENT(publics), LENT(queries),
                                LENT(equations), steps.trace.steps, LENT(trace), 1, m->params, m->params_len,
                                LENT(scratch));
}

int main(void)
{
    static const uint32_t one[] = {0, SFR_PRIME - 1, 5}; /* x becomes 5(x - 1)^7 */
    static const uint32_t two[] = {0, 0, 0, 2, 1, 1, 1}; /* x, y become 2x^7 + y^7, x^7 + y^7 */
    plant mill = {{0, 0}, {0}}, *p = &mill;
    mixer dry = {.params = one, .params_len = 3}, *premix = &dry;
    mixer last = {.params = two, .params_len = 7}, *finish = &last;
    char ticket[25];

    premix->index = go_on(p, premix, sfr_with_allocator(p->allocator, 1, 2, LENT(p->slots), LENT(premix->uses)));
    finish->index = go_on(p, finish, sfr_with_allocator(p->allocator, 2, 4, LENT(p->slots), LENT(finish->uses)));
    const uint32_t hopper = go_on(p, premix, sfr_allocate_vars_on(ON(p, premix), LENT(p->slots), 1));
    const uint32_t hand = go_on(p, finish, sfr_allocate_vars_on(ON(p, finish), LENT(p->slots), 2));
    const uint32_t sack = hand + 1;
    snprintf(ticket, sizeof ticket, "%10u %12d\n", (unsigned)sack, 50); /* 50 g are 1 step */
    read_ticket(p, finish, "finish", ticket);
    read_ticket(p, premix, "premix", ticket); /* the other has set the wire */

    const uint32_t sealed[] = {hand, hopper};
    go_on(p, premix, sfr_allocate_permutation_on(ON(p, premix), LENT(p->slots), LENT(premix->queries), LENT(premix->uses),
                                                 &hopper, 1));
    go_on(p, finish, sfr_allocate_permutation_on(ON(p, finish), LENT(p->slots), LENT(finish->queries), LENT(finish->uses),
                                                 LENT(sealed)));
    const uint32_t more = sfr_allocate_vars_on(ON(p, premix), LENT(p->slots), 1).number;
    printf("a third wire for premix: %u\n", (unsigned)more); /* its quota is 2 */

    const sfr_weighted order[] = {{hopper, 1}, {sack, SFR_PRIME - 1}};
    const sfr_weighted agree[] = {{hand, 1}, {sack, 1}, {hopper, SFR_PRIME - 1}};
    go_on(p, premix, sfr_add_equation_on(ON(p, premix), LENT(premix->equations), LENT(order), 2));
    go_on(p, finish, sfr_add_equation_on(ON(p, finish), LENT(finish->equations), LENT(agree), 0));

    printf("hopper 3: premix %u\n", (unsigned)check(p, premix, (uint32_t[]){3}));               /* yes */
    printf("hopper 4: premix %u\n", (unsigned)check(p, premix, (uint32_t[]){4}));               /* no */
    printf("hopper 3, by hand 2: finish %u\n", (unsigned)check(p, finish, (uint32_t[]){2, 3})); /* yes */
    printf("hopper 3, by hand 3: finish %u\n", (unsigned)check(p, finish, (uint32_t[]){3, 3})); /* no */

    /* With the recipe at hand, the two readings behind a digest. */
    const uint32_t digest[] = {2443, 2315};
    uint32_t readings[2];
    accepted(sfr_permute_inverse(2, 1, finish->params, finish->params_len, LENT(digest), LENT(readings)));
    printf("behind [%u, %u]: [%u, %u]\n", (unsigned)digest[0], (unsigned)digest[1], (unsigned)readings[0],
           (unsigned)readings[1]); /* by hand 2, hopper 3 */
    return 0;
}
