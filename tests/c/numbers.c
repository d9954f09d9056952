/* What numbers mean. With an argument it prints sfr_meaning and sfr_part_meaning in the form of docs/numbers.txt; without, it
 * makes every choice of the parts of 11 unsound at once, and sees that gate, writing and check then answer 11 and that the
 * first part that they ask is told. */
#include <stdio.h>
#include <string.h>
#include "sfr.h"

#define LENT(list) (list), sizeof(list) / sizeof *(list)
#define P SFR_PRIME
#define F SFR_UNASSIGNED
#define TOO_FAR SFR_MAX_COUNT /* no wire */

static int faults;
static unsigned long told;

static void is(const char *what, unsigned long choice, unsigned long got, unsigned long expected)
{
    told++;
    if (got == expected || faults++ > 9)
        return;
    printf("numbers: %s, choice %lx: %lu and not %lu\n", what, choice, got, expected);
}

/* ---- docs/numbers.txt. ---- */

static void list(void)
{
    static const char *const names[] = {"equations", "publics", "queries", "slots", "trace", "label", "counts"};
    const char *const none = sfr_meaning(1000);
    for (uint32_t number = 1; number < 1000; number++) {
        if (strcmp(sfr_meaning(number), none) == 0)
            continue;
        printf("%u %s\n", (unsigned)number, sfr_meaning(number));
        for (int i = 0; number == 11 && i < 7; i++)
            printf("11 %s: %s\n", names[i], sfr_part_meaning((sfr_part)(SFR_PART_EQUATIONS + i)));
    }
}

/* ---- The parts. Bit by bit, what is unsound. ---- */

enum { ENDS = 1, TERM = 2, WEIGHT = 4, IMAGE = 8, VAR = 16, VALUE = 32, QUERY = 64, SLOT = 128, CUT = 256, UNIT = 512,
       CHOICES = 1024 };

/* docs/SCOPE.md's instance A, and what a choice makes of it. */
typedef struct {
    uint8_t label[2];
    uint32_t slots[4], uses[4], queries[2], equations[5], publics[4], trace[2], words;
} parts;

static parts parts_of(unsigned choice)
{
    parts a = {{0xC3, 0xA9}, {0, F, 5, P}, {0, 1, 1, 0}, {1, 2}, {1, 1, 3, 6, 0}, {0, 0, 2, 5}, {2, 5}, 4};
    if (choice & ENDS) a.words = 5;
    if (choice & TERM) a.equations[1] = TOO_FAR;
    if (choice & WEIGHT) a.equations[2] = P;
    if (choice & IMAGE) a.equations[3] = P;
    if (choice & VAR) a.publics[2] = TOO_FAR;
    if (choice & VALUE) a.publics[3] = P;
    if (choice & QUERY) a.queries[1] = TOO_FAR;
    if (choice & SLOT) a.slots[2] = P;
    if (choice & CUT) a.label[1] = 'A';
    if (choice & UNIT) a.trace[1] = P;
    return a;
}

/* The first part, of those that a call asks in this order, that a choice makes unsound. */
static sfr_part first(unsigned choice, const sfr_part *order)
{
    static const unsigned bits[] = {0, ENDS | TERM | WEIGHT | IMAGE, VAR | VALUE, QUERY, SLOT, UNIT, CUT, 0};
    while (*order != SFR_SOUND && (choice & bits[*order]) == 0)
        order++;
    return *order;
}

static const sfr_part gate_asks[] = {SFR_PART_EQUATIONS, SFR_PART_QUERIES, SFR_PART_SLOTS, SFR_PART_LABEL, SFR_SOUND};
static const sfr_part write_asks[] = {SFR_PART_EQUATIONS, SFR_PART_PUBLICS, SFR_PART_QUERIES, SFR_PART_LABEL, SFR_SOUND};
static const sfr_part trace_asks[] = {SFR_PART_TRACE, SFR_SOUND};
static const uint32_t params[] = {0, P - 1, 5};

static uint32_t expected(sfr_part part)
{
    return part == SFR_SOUND ? 0 : 11;
}

static void gate(unsigned choice)
{
    const sfr_part part = first(choice, gate_asks);
    parts a = parts_of(choice);
    uint32_t publics[4], scratch[3];
    const sfr_relation rel = {1, 3, 1, 1, a.words, 0};
    is("the gate", choice, sfr_compile(rel, LENT(a.label), LENT(a.slots), LENT(a.queries), LENT(a.equations), LENT(a.uses),
                                       LENT(publics), LENT(scratch)).number, expected(part));
    is("the gate's part", choice, sfr_unsound_held(rel, LENT(a.label), LENT(a.slots), LENT(a.queries), LENT(a.equations)),
       part);

    const sfr_var_allocator allocator = {3, 2};
    const sfr_shared_relation on = {1, 1, 1, a.words, 0, 9, 2};
    is("the gate on an allocator", choice,
       sfr_compile_on(allocator, 1, on, LENT(a.label), LENT(a.slots), LENT(a.queries), LENT(a.equations), LENT(a.uses),
                      LENT(publics), LENT(scratch)).number, expected(part));
    is("its part", choice,
       sfr_unsound_held_on(allocator, 1, on, LENT(a.label), LENT(a.slots), LENT(a.queries), LENT(a.equations)), part);

    /* What comes before 11. */
    const sfr_relation wide = {25, 3, 1, 1, a.words, 0}, many = {1, 5, 1, 1, a.words, 0};
    is("no part at 1", choice, sfr_unsound_held(wide, LENT(a.label), LENT(a.slots), LENT(a.queries), LENT(a.equations)),
       SFR_SOUND);
    is("no part at 2", choice, sfr_unsound_held(many, LENT(a.label), LENT(a.slots), LENT(a.queries), LENT(a.equations)),
       SFR_SOUND);
    is("no part at 42", choice,
       sfr_unsound_held_on(allocator, 2, on, LENT(a.label), LENT(a.slots), LENT(a.queries), LENT(a.equations)), SFR_SOUND);
}

static void files(unsigned choice)
{
    const sfr_part part = first(choice, write_asks), traced = first(choice, trace_asks);
    parts a = parts_of(choice);
    uint8_t out[96];
    uint32_t scratch[3];
    const sfr_instance ins = {1, 3, 1, 1, a.words, 2};
    const sfr_trace rec = {1, 1};
    is("the writing", choice, sfr_instance_to_bytes(ins, LENT(a.label), LENT(a.publics), LENT(a.queries), LENT(a.equations),
                                                    LENT(out)).number, expected(part));
    is("the writing's part", choice,
       sfr_unsound_part(ins, LENT(a.label), LENT(a.publics), LENT(a.queries), LENT(a.equations)), part);
    is("the trace", choice, sfr_witness_to_bytes(rec, LENT(a.trace), LENT(out)).number, expected(traced));
    is("the trace's part", choice, sfr_unsound_trace(rec, LENT(a.trace)), traced);
    is("the check", choice, sfr_is_witness_valid(ins, LENT(a.label), LENT(a.publics), LENT(a.queries), LENT(a.equations), 1,
                                                 LENT(a.trace), 1, LENT(params), LENT(scratch)),
       expected(part != SFR_SOUND ? part : traced));

    const sfr_instance none = {0, 3, 1, 1, a.words, 2}, many = {1, 3, 2, 1, a.words, 2};
    is("no part at 1", choice, sfr_unsound_part(none, LENT(a.label), LENT(a.publics), LENT(a.queries), LENT(a.equations)),
       SFR_SOUND);
    is("no part at 2", choice, sfr_unsound_part(many, LENT(a.label), LENT(a.publics), LENT(a.queries), LENT(a.equations)),
       SFR_SOUND);
}

/* The calls that ask one part only: the counts, or where the equations end. */
static void single(void)
{
    const uint32_t input[] = {1}, output[] = {2}, most = SFR_MAX_COUNT;
    const sfr_relation rel = {1, 3, 1, 1, 4, 0};
    uint32_t queries[4] = {1, 2, 0, 0}, slots[4] = {0, F, 5, F}, uses[4] = {0, most, 1, most};
    is("a record, a count at its most", 0,
       sfr_add_permutation(rel, LENT(slots), LENT(queries), LENT(uses), LENT(input), LENT(output)).number, 11);
    is("a mint, a count at its most", 0,
       sfr_allocate_permutation(rel, LENT(slots), LENT(queries), LENT(uses), LENT(output)).number, 11);
    uses[2] = 0;
    is("a withdrawal, a count at 0", 0, sfr_withdraw_query(rel, LENT(slots), LENT(queries), LENT(uses), 0).number, 11);

    uint32_t far[] = {1, TOO_FAR, P, P}, cut[] = {2, 1, 3, 6};
    is("a withdrawal, an unsound equation", 0, sfr_withdraw_equation(rel, LENT(far), 0).number, 0);
    is("a withdrawal, equations that end elsewhere", 0, sfr_withdraw_equation(rel, LENT(cut), 0).number, 11);
}

int main(int argc, char **argv)
{
    (void)argv;
    if (argc > 1) {
        list();
        return 0;
    }
    is("sfr_meaning(0)", 0, strcmp(sfr_meaning(0), "accepted") != 0, 0);
    is("sfr_meaning(8)", 0, strcmp(sfr_meaning(8), "the wire already has another value") != 0, 0);
    is("sfr_meaning(18)", 0, strcmp(sfr_meaning(18), "no call answers this number") != 0, 0);
    for (unsigned choice = 0; choice < CHOICES; choice++) {
        gate(choice);
        files(choice);
    }
    single();
    if (faults == 0)
        printf("%d choices of unsound parts, %lu answers\n", CHOICES, told);
    return faults != 0;
}
