/* NULL for an empty list. Every function that is lent a list gets each choice of its lists as empty, once as NULL and once
 * as a place with length 0: answers and all stores must be alike. It runs on parts that hold nothing, where most calls then
 * say yes, and on parts that hold something. */
#include <stdio.h>
#include <stdlib.h>
#include <string.h>
#include "sfr.h"

enum { LABEL, NAME, TEXT, SFRI, SFRW, OUT, SLOTS, USES, QUERIES, EQUATIONS, PUBLICS, SCRATCH, TRACE, PARAMS, INPUT, OUTPUT,
       VARS, VALUES, TERMS, LISTS };

typedef union {
    uint8_t bytes[96];
    uint32_t words[24];
    sfr_weighted terms[12];
} store;

static bool holding;         /* do the parts hold something? */
static store stores[LISTS];  /* what is lent .. */
static size_t lens[LISTS];   /* .. as how many elements */
static unsigned empty, used; /* the lists that are lent as empty, and those that a call is lent */
static bool as_null;         /* is an empty one NULL? */

static void *place(int list)
{
    used |= 1u << list;
    return as_null && (empty >> list & 1) ? NULL : &stores[list];
}

static size_t length(int list)
{
    return empty >> list & 1 ? 0 : lens[list];
}

#define L(list) place(list), length(list)

/* ---- What a call told. ---- */

static uint64_t told[16];
static int fields;

static void tell(uint64_t field)
{
    told[fields++] = field;
}

static void tell_bool(bool b) { tell(0), tell(b); }
static void tell_scan(sfr_utf8_scan s) { tell(0), tell(s.place), tell(s.passes); }
static void tell_heading(sfr_heading_answer h) { tell(0), tell(h.named), tell(h.len); }
static void tell_number(uint32_t number) { tell(number); }
static void tell_word(sfr_word w) { tell(w.number), tell(w.value), tell(w.next); }
static void tell_place(sfr_place p) { tell(p.number), tell(p.next); }
static void tell_set(sfr_set_answer s) { tell(s.number), tell(s.fresh); }
static void tell_tally(sfr_tally t) { tell(t.number), tell(t.accepted), tell(t.fresh); }
static void tell_tickets(sfr_ticket_tally t) { tell(t.number), tell(t.accepted), tell(t.fresh); }
static void tell_value(sfr_value v) { tell(v.number), tell(v.some), tell(v.value); }
static void tell_trace(sfr_trace_answer t) { tell(t.number), tell(t.trace.width), tell(t.trace.steps); }
static void tell_written(sfr_written w) { tell(w.number), tell(w.len); }

static void tell_relation(sfr_relation_answer a)
{
    const sfr_relation r = a.relation;
    tell(a.number), tell(a.first), tell(r.width), tell(r.vars), tell(r.queries), tell(r.equations), tell(r.words);
    tell(r.stray);
}

static void tell_shared(sfr_shared_answer a)
{
    const sfr_shared_relation r = a.relation;
    tell(a.number), tell(a.first), tell(a.allocator.vars), tell(a.allocator.opened), tell(r.width), tell(r.queries);
    tell(r.equations), tell(r.words), tell(r.stray), tell(r.quota), tell(r.obtained);
}

static void tell_instance(sfr_instance_answer a)
{
    const sfr_instance i = a.instance;
    tell(a.number), tell(i.width), tell(i.vars), tell(i.queries), tell(i.equations), tell(i.words), tell(i.publics);
}

static void tell_read(sfr_instance_read a)
{
    const sfr_instance_answer answer = {a.number, a.instance};
    tell_instance(answer), tell(a.label.at), tell(a.label.len);
}

/* ---- The parts: none, or docs/SCOPE.md's instance A. ---- */

static sfr_relation rel(void)
{
    const sfr_relation none = {1, 1, 0, 0, 0, 0}, some = {1, 3, 1, 1, 4, 0};
    return holding ? some : none;
}

static sfr_instance ins(void)
{
    const sfr_instance none = {1, 0, 0, 0, 0, 0}, some = {1, 3, 1, 1, 4, 2};
    return holding ? some : none;
}

static sfr_var_allocator allocator(void)
{
    const sfr_var_allocator a = {rel().vars, 1};
    return a;
}

static sfr_shared_relation shared(void)
{
    const sfr_relation r = rel();
    const sfr_shared_relation s = {r.width, r.queries, r.equations, r.words, r.stray, 9, r.vars - 1};
    return s;
}

static sfr_trace rec(void)
{
    const sfr_trace t = {1, holding};
    return t;
}

static void fill(int list, const void *from, size_t size, size_t len)
{
    memcpy(&stores[list], from, size);
    lens[list] = len;
}

#define FILL(list, ...)                                                 \
    do {                                                                \
        const uint32_t words[] = {__VA_ARGS__};                         \
        fill(list, words, sizeof words, sizeof words / sizeof *words);  \
    } while (0)

static void refused(const char *name)
{
    printf("null: %s refuses the parts\n", name);
    exit(1);
}

static void set_up(void)
{
    const uint32_t F = SFR_UNASSIGNED;
    const sfr_weighted terms[] = {{1, 3}, {2, 4}};
    empty = 0;
    memset(stores, 0xEE, sizeof stores);
    fill(LABEL, "A", 1, 1);
    fill(NAME, "mix", 3, 3);
    fill(TEXT, "         2          250\n", 24, 24);
    FILL(SLOTS, 0, F, 5, 7, 7, 7);
    FILL(USES, 0, 1, 1, 0, 0, 0);
    FILL(QUERIES, 1, 2, 9, 9);
    FILL(EQUATIONS, 1, 1, 3, 6, 9, 9, 9, 9, 9, 9, 9, 9);
    FILL(PUBLICS, 0, 0, 2, 5);
    FILL(SCRATCH, 9, 9, 9, 9);
    FILL(TRACE, 2, 5, 9, 9);
    FILL(PARAMS, 0, SFR_PRIME - 1, 5);
    FILL(INPUT, 1);
    FILL(OUTPUT, 2);
    FILL(VARS, 2);
    FILL(VALUES, 5);
    fill(TERMS, terms, sizeof terms, 2);
    lens[SFRI] = lens[SFRW] = lens[OUT] = 96;
    const sfr_written i = sfr_instance_to_bytes(ins(), stores[LABEL].bytes, holding ? 1 : 0, L(PUBLICS), L(QUERIES),
                                                L(EQUATIONS), L(SFRI));
    const sfr_written w = sfr_witness_to_bytes(rec(), L(TRACE), L(SFRW));
    if (i.number != 0 || w.number != 0)
        refused("the writing");
    lens[SFRI] = i.len, lens[SFRW] = w.len;
}

/* ---- Every function that is lent a list. ---- */

#define ON allocator(), 0, shared()

#define CALLS(X)                                                                                                        \
    X(sfr_is_utf8, bool, (L(LABEL)))                                                                                    \
    X(sfr_scan_utf8, scan, (L(LABEL)))                                                                                  \
    X(sfr_read_u32, word, (L(SFRI), 0))                                                                                 \
    X(sfr_put_u32, place, (L(OUT), 0, 7))                                                                               \
    X(sfr_read_units, place, (L(SFRI), 5, L(TRACE), 0, holding))                                                        \
    X(sfr_read_vars, place, (L(SFRI), 5, L(QUERIES), 0, holding))                                                       \
    X(sfr_new_relation, relation, (1, L(SLOTS), L(USES)))                                                               \
    X(sfr_allocate_vars, relation, (rel(), L(SLOTS), 2))                                                                \
    X(sfr_set_var, set, (rel(), L(SLOTS), 0, 0))                                                                        \
    X(sfr_set_vars, tally, (rel(), L(SLOTS), L(VARS), L(VALUES)))                                                       \
    X(sfr_set_tickets, tickets, (rel(), L(SLOTS), L(TEXT)))                                                             \
    X(sfr_add_permutation, relation, (rel(), L(SLOTS), L(QUERIES), L(USES), L(INPUT), L(OUTPUT)))                       \
    X(sfr_allocate_permutation, relation, (rel(), L(SLOTS), L(QUERIES), L(USES), L(INPUT)))                             \
    X(sfr_withdraw_query, relation, (rel(), L(SLOTS), L(QUERIES), L(USES), 0))                                          \
    X(sfr_add_equation, relation, (rel(), L(EQUATIONS), L(TERMS), 6))                                                   \
    X(sfr_withdraw_equation, relation, (rel(), L(EQUATIONS), 0))                                                        \
    X(sfr_scale, number, (L(TERMS), 3))                                                                                 \
    X(sfr_value_of, value, (rel(), L(SLOTS), 0))                                                                        \
    X(sfr_with_allocator, shared, (allocator(), 1, 5, L(SLOTS), L(USES)))                                               \
    X(sfr_allocate_vars_on, shared, (ON, L(SLOTS), 2))                                                                  \
    X(sfr_set_var_on, set, (ON, L(SLOTS), 0, 0))                                                                        \
    X(sfr_set_vars_on, tally, (ON, L(SLOTS), L(VARS), L(VALUES)))                                                       \
    X(sfr_set_tickets_on, tickets, (ON, L(SLOTS), L(TEXT)))                                                             \
    X(sfr_add_permutation_on, shared, (ON, L(SLOTS), L(QUERIES), L(USES), L(INPUT), L(OUTPUT)))                         \
    X(sfr_allocate_permutation_on, shared, (ON, L(SLOTS), L(QUERIES), L(USES), L(INPUT)))                               \
    X(sfr_withdraw_query_on, shared, (ON, L(SLOTS), L(QUERIES), L(USES), 0))                                            \
    X(sfr_add_equation_on, shared, (ON, L(EQUATIONS), L(TERMS), 6))                                                     \
    X(sfr_withdraw_equation_on, shared, (ON, L(EQUATIONS), 0))                                                          \
    X(sfr_value_of_on, value, (ON, L(SLOTS), 0))                                                                        \
    X(sfr_permute, number, (1, 1, L(PARAMS), L(INPUT)))                                                                 \
    X(sfr_permute_inverse, number, (1, 1, L(PARAMS), L(OUTPUT), L(INPUT)))                                              \
    X(sfr_evaluate_step, trace, (rec(), L(TRACE), L(INPUT), 1, L(PARAMS)))                                              \
    X(sfr_append_step, trace, (rec(), L(TRACE), L(INPUT), L(OUTPUT)))                                                   \
    X(sfr_witness_to_bytes, written, (rec(), L(TRACE), L(OUT)))                                                         \
    X(sfr_witness_from_bytes, trace, (1, L(SFRW), L(TRACE)))                                                            \
    X(sfr_compile, instance,                                                                                            \
      (rel(), L(LABEL), L(SLOTS), L(QUERIES), L(EQUATIONS), L(USES), L(PUBLICS), L(SCRATCH)))                           \
    X(sfr_compile_on, instance,                                                                                         \
      (ON, L(LABEL), L(SLOTS), L(QUERIES), L(EQUATIONS), L(USES), L(PUBLICS), L(SCRATCH)))                              \
    X(sfr_instance_to_bytes, written, (ins(), L(LABEL), L(PUBLICS), L(QUERIES), L(EQUATIONS), L(OUT)))                  \
    X(sfr_instance_from_bytes, read, (1, L(SFRI), L(PUBLICS), L(QUERIES), L(EQUATIONS), L(SCRATCH)))                    \
    X(sfr_strict_instance_from_bytes, read, (1, L(SFRI), L(PUBLICS), L(QUERIES), L(EQUATIONS), L(SCRATCH)))             \
    X(sfr_public_value, value, (ins(), L(PUBLICS), 0))                                                                  \
    X(sfr_heading, heading, (L(LABEL), L(NAME)))                                                                        \
    X(sfr_is_witness_valid, number,                                                                                     \
      (ins(), L(LABEL), L(PUBLICS), L(QUERIES), L(EQUATIONS), holding, L(TRACE), 1, L(PARAMS), L(SCRATCH)))

#define FUNCTION(name, kind, arguments) \
    static void call_##name(void) { tell_##kind(name arguments); }
#define ROW(name, kind, arguments) {#name, call_##name},

CALLS(FUNCTION)
static const struct {
    const char *name;
    void (*call)(void);
} calls[] = {CALLS(ROW)};

/* What a call tells and leaves with these lists empty. */
typedef struct {
    uint64_t told[16];
    store stores[LISTS];
} result;

static void run(size_t i, unsigned lists, bool null, result *r)
{
    set_up();
    memset(told, 0, sizeof told);
    fields = 0;
    empty = lists;
    as_null = null;
    used = 0;
    calls[i].call();
    memcpy(r->told, told, sizeof told);
    memcpy(r->stores, stores, sizeof stores);
    as_null = false;
}

int main(void)
{
    static result full, null, other;
    unsigned long count = 0, yes = 0;
    for (int turn = 0; turn < 2; turn++) {
        holding = turn;
        for (size_t i = 0; i < sizeof calls / sizeof *calls; i++) {
            run(i, 0, false, &full);
            if (holding && full.told[0] != 0)
                refused(calls[i].name);
            const unsigned lists = used;
            for (unsigned some = lists; some != 0; some = (some - 1) & lists) {
                run(i, some, true, &null);
                run(i, some, false, &other);
                if (memcmp(&null, &other, sizeof null) != 0) {
                    printf("null: %s with the lists %x as NULL, length 0, isn't as with empty ones\n", calls[i].name, some);
                    return 1;
                }
                count++;
                yes += null.told[0] == 0;
            }
        }
    }
    printf("%zu functions, %lu calls with NULL for an empty list, %lu of them a yes\n", sizeof calls / sizeof *calls, count,
           yes);
    return 0;
}
