/* sfr.h: sealed-batch relations, proved, for C99 and C++11 and later.
 *
 * Link with libsfr.a, for Linux on x86-64, which `rt lib` in crates/sfr writes to its folder out and ./install puts where
 * pkg-config finds it. Files named here are the repository's. examples/batch.c is a batch from its first wire to a yes;
 * docs/SCOPE.md has the terms in full, and each call's questions. Here stand, in this order: units, UTF-8 and words in
 * bytes; relations; relations on one allocator; permutations and traces; instances; the check; what a number means. The
 * same functions stand for Rust in rust/.
 *
 * What is lent. A list X is lent as a pointer and a count of elements, X_len. This alone is asked of the caller: so
 * many elements are there, aligned, and what a call writes to overlaps nothing else that it is lent. Where the count
 * is 0 the pointer may be NULL. A comment says how long a list must be for a yes; it may be longer where it doesn't
 * say "exactly".
 *
 * What is answered. Every function answers on every input, never reads or writes outside what it is lent, and keeps
 * nothing from one call to the next. A call asks its questions in the order in which its comment lists them, and
 * answers the number of the first one that says no, or 0, a yes. Unless the comment says otherwise, a refusal leaves
 * everything lent as it was, and a yes changes nothing past what it writes. Compilers warn where a number is ignored; to
 * ignore one on purpose, put the answer into a variable and cast that to void.
 *
 * Letters and stores. w is the width, R the rounds of a permutation, p = SFR_PRIME and F = SFR_UNASSIGNED. A wire is a
 * u32 below 2^30, a unit one below p. These lists are of u32:
 *   slots      a unit per wire, or F where the wire has no value yet
 *   queries    2w wires each, inputs then outputs
 *   uses       per slot, how many cells of the relation's queries name its wire
 *   equations  each a term count, then wire and weight per term, then the image
 *   publics    wire and unit pairs
 *   trace      2w units per step, inputs then outputs
 *   params     a permutation's parameters (in docs/SCOPE.md its sheet), lent beside its rounds: per round a kind
 *              (0 or 1) and w constants, then w*w matrix units row by row
 *   scratch    may hold anything before a call, and is all 0 after it
 * A use store is one relation's own, and exactly as long as the slots. sfr_new_relation, or the relation's opening,
 * fills it with 0; from then on it is handed from call to call as the queries are, and nobody else writes it. A cell
 * whose wire has a slot is counted there, allocated or not; any other is stray, and is counted in the relation's
 * record.
 *
 * Numbers, and what each says is wrong (sfr_meaning has the text):
 *
 * -- docs/numbers.txt, written here by tools/numbers:
 *    1  the width isn't from 1 to 24
 *    2  a lent list is too long, or a count is out of range or more than its store holds
 *    3  a wire is 2^30 or more
 *    4  a word that must be a unit is p (2013265921) or more
 *    5  there would be more than 2^30 wires
 *    6  there are fewer slots than there would be wires
 *    7  the wire to be set isn't allocated
 *    8  the wire already has another value
 *    9  a list isn't as long as the width, or the two lists of a set list differ in length
 *   10  a list that would be written to is too short, or there isn't exactly one use count per slot
 *   11  the label or what a store holds isn't sound, or a count would be below 0 or above 2^30
 *         equations: the equations don't end exactly at the used words, or hold a wire of 2^30 or more or a unit of p
 *                    or more
 *         publics:   a public wire is 2^30 or more, or its value p or more
 *         queries:   a query's wire is 2^30 or more
 *         slots:     an allocated wire's slot is neither a unit nor F
 *         trace:     a word of a step is p or more
 *         label:     the label isn't UTF-8
 *         counts:    a use count or the stray count would be below 0 or above 2^30
 *   12  a public wire isn't below the wire count
 *   13  a query's wire isn't below the wire count (a gate goes by the use counts)
 *   14  a term's wire isn't below the wire count
 *   15  a term has a weight other than 0, and its wire is neither public nor in a query (a gate goes by the use counts)
 *   16  scratch has fewer words than there are wires
 *   17  the parameters have over 128 rounds, a wrong length, a kind over 1 or a unit of p or more
 *   20  the bytes end before the word or field to be read does
 *   21  the bytes don't begin with SFRI for an instance, or SFRW for a trace
 *   22  the version in the bytes isn't 1
 *   23  the width in the bytes isn't the one asked for
 *   24  the unit length in the bytes isn't 4
 *   25  the label in the bytes isn't UTF-8
 *   27  the public wires in the bytes don't strictly increase
 *   28  bytes are left over at the end
 *   31  the trace hasn't exactly one step per query
 *   32  a step's outputs aren't what the permutation makes of its inputs
 *   33  a step gives a wire another value than it already has
 *   34  a term's wire has no value, neither public nor from a step
 *   35  an equation's sum isn't its image
 *   36  a public or query wire isn't below the wire count
 *   40  a ticket line isn't in its form, or is cut short at the text's end
 *   41  a ticket's grams come to p (2013265921) steps or more
 *   42  no relation of this number is opened, or a ninth would be
 *   43  the relation would have obtained more wires than its quota
 *   44  there are rounds and the matrix is singular: two different inputs share an output
 *   45  there is no query or equation of this number
 *   46  there are no wires, or wire 0 isn't listed with value 0
 * -- end of docs/numbers.txt
 *
 * 2 says that a list of u32 has more than 2^30 words, or a label 2^32 bytes or more; that a relation's record has no
 * wires or more than 2^30, or an allocator's more than 8 relations; or that a count needs more words than its store
 * has. 3 and 4 are asked of what is handed in or read from bytes. What a store holds is asked by 11, and
 * sfr_unsound_part and its like tell which part of it was unsound. A gate goes by the counts: 13 asks whether the stray
 * count and the use counts of unallocated wires are 0, and for 15 a wire is in a query where its use count is above 0.
 * docs/NUMBERS.md has more on some of them. */
#ifndef SFR_H
#define SFR_H

#include <stdbool.h>
#include <stddef.h>
#include <stdint.h>

/* On every function whose answer has a number: the answer must be used. */
#if defined(__cplusplus) && __cplusplus >= 201703L
#define SFR_MUST_USE [[nodiscard]]
#elif defined(__GNUC__) /* clang defines it too */
#define SFR_MUST_USE __attribute__((warn_unused_result))
#else
#define SFR_MUST_USE
#endif

#ifdef __cplusplus
extern "C" {
#endif

/* ---- Version, limits and sizes. ---- */

#define SFR_VERSION_MAJOR 0
#define SFR_VERSION_MINOR 1
#define SFR_VERSION_PATCH 0
#define SFR_VERSION "0.1.0"

#define SFR_PRIME UINT32_C(2013265921)      /* p */
#define SFR_UNASSIGNED UINT32_C(4294967295) /* F, the slot of a wire without a value */

#define SFR_MAX_WIDTH 24                    /* w is from 1 to this */
#define SFR_MAX_COUNT UINT32_C(1073741824)  /* 2^30: the most words of a list of u32, and wires of a relation */
#define SFR_MAX_RELATIONS 8                 /* on one allocator */
#define SFR_MAX_ROUNDS 128
#define SFR_TICKET_LINE 24                  /* bytes of a ticket's line */
#define SFR_SFRI_FIXED 33                   /* bytes of SFRI beside its label and lists */
#define SFR_SFRW_FIXED 17                   /* bytes of SFRW beside its steps */

/* How many words a store needs, as a size_t: a constant where the arguments are. Some use an argument twice. */
#define SFR_QUERIES_WORDS(width, queries) ((size_t)2 * (size_t)(width) * (size_t)(queries))
#define SFR_TRACE_WORDS(width, steps) ((size_t)2 * (size_t)(width) * (size_t)(steps))
#define SFR_EQUATION_WORDS(terms) ((size_t)2 * (size_t)(terms) + 2) /* one equation of so many terms */
#define SFR_PUBLICS_WORDS(publics) ((size_t)2 * (size_t)(publics))
#define SFR_PARAMS_WORDS(width, rounds) ((size_t)(rounds) * ((size_t)(width) + 1) + (size_t)(width) * (size_t)(width))

/* How many bytes are written of an instance, whose equations use so many words, and of a trace. */
#define SFR_SFRI_BYTES(label_len, width, publics, queries, words) \
    (SFR_SFRI_FIXED + (size_t)(label_len) + (size_t)8 * (size_t)(publics) + \
     (size_t)8 * (size_t)(width) * (size_t)(queries) + (size_t)4 * (size_t)(words))
#define SFR_SFRW_BYTES(width, steps) (SFR_SFRW_FIXED + (size_t)8 * (size_t)(width) * (size_t)(steps))

/* ---- Units, UTF-8, and words in bytes. ---- */

/* A word that was read, and the place after it; after a refusal value is 0 and next the place given. */
typedef struct {
    uint32_t number;
    uint32_t value;
    size_t next;
} sfr_word;

/* The place after what was read or written; after a refusal the place given. */
typedef struct {
    uint32_t number;
    size_t next;
} sfr_place;

/* What a scan for UTF-8 tells: where, counted from 0, the first byte stands after which no continuation can be UTF-8, or
 * the length where there is none; and whether the bytes pass. place = length doesn't mean that they pass: bytes cut off
 * inside a character have their length as place, and don't pass. */
typedef struct {
    size_t place;
    bool passes;
} sfr_utf8_scan;

/* Sum and product modulo p, a unit. Both take any u32: one of p or more is first reduced modulo p. No questions. Nothing
 * is lent. */
uint32_t sfr_add_unit(uint32_t a, uint32_t b);
uint32_t sfr_mul_unit(uint32_t a, uint32_t b);

/* Are the bytes UTF-8 by RFC 3629? An empty list is. No questions. Lent: bytes, only read. */
bool sfr_is_utf8(const uint8_t *bytes, size_t bytes_len);

/* Scans the bytes for UTF-8 up to the place that it answers; of what lies behind it at most 127 bytes are looked at.
 * C0 80 has place 0, ED A0 80 place 1; C3 alone has place 1, its length, and doesn't pass. passes is what sfr_is_utf8
 * answers: an empty list passes, with place 0. No questions. Lent: bytes, only read. */
sfr_utf8_scan sfr_scan_utf8(const uint8_t *bytes, size_t bytes_len);

/* The little-endian word at bytes[at..at+4). Question 20; a place beyond the bytes holds nothing. Lent: bytes, only
 * read. */
SFR_MUST_USE
sfr_word sfr_read_u32(const uint8_t *bytes, size_t bytes_len, size_t at);

/* Puts a word, little-endian, at out[at..at+4). Question 10. Lent: out. A refusal leaves it as it was. */
SFR_MUST_USE
sfr_place sfr_put_u32(uint8_t *out, size_t out_len, size_t at, uint32_t value);

/* Reads one item of n units from byte `at` on and puts it at out[place..place+n).
 * Questions, per word: 20, 4; after all n words 10. Lent: bytes, only read; out, place + n words. A refusal leaves out
 * as it was. */
SFR_MUST_USE
sfr_place sfr_read_units(const uint8_t *bytes, size_t bytes_len, size_t at,
                         uint32_t *out, size_t out_len, size_t place, uint32_t n);

/* Reads one item of n wires from byte `at` on and puts it at out[place..place+n).
 * Questions, per word: 20, 3; after all n words 10. Lent: bytes, only read; out, place + n words. A refusal leaves out
 * as it was. */
SFR_MUST_USE
sfr_place sfr_read_vars(const uint8_t *bytes, size_t bytes_len, size_t at,
                        uint32_t *out, size_t out_len, size_t place, uint32_t n);

/* ---- Relations. ---- */

/* A relation's record, handed in and back by value: width, counts of wires, queries and equations, how many words of the
 * equation store these use, and how many query cells are stray. */
typedef struct {
    uint32_t width;
    uint32_t vars;
    uint32_t queries;
    uint32_t equations;
    uint32_t words;
    uint32_t stray;
} sfr_relation;

/* `first` is the first wire that an allocation or a mint answers, 0 elsewhere and after a refusal. A refused call gives
 * back the record it was given, a refused sfr_new_relation a record of zeros. */
typedef struct {
    uint32_t number;
    uint32_t first;
    sfr_relation relation;
} sfr_relation_answer;

/* One term of an equation: a wire and its weight, a unit. */
typedef struct {
    uint32_t var;
    uint32_t weight;
} sfr_weighted;

/* Whether an accepted set is fresh or repeated: fresh where the slot of its wire was F just before, repeated where it held
 * that value, as wire 0's holds 0 from the start. fresh is false after a refusal. */
typedef struct {
    uint32_t number;
    bool fresh;
} sfr_set_answer;

/* How many of a list's first pairs were accepted, and how many of those were fresh, after a refusal too. The rest of the
 * accepted ones are repeated, as is a pair whose wire an earlier one of the list has set. Both are 0 at 1, 2 and 42. */
typedef struct {
    uint32_t number;
    uint32_t accepted;
    uint32_t fresh;
} sfr_tally;

/* How many of a ticket text's first lines were accepted, and how many of those were fresh, after a refusal too. Both are 0
 * at 1, 2 and 42. */
typedef struct {
    uint32_t number;
    size_t accepted;
    size_t fresh;
} sfr_ticket_tally;

/* A value where there is one; else, and after a refusal, some is false and value 0. */
typedef struct {
    uint32_t number;
    bool some;
    uint32_t value;
} sfr_value;

/* yes is false after a refusal. */
typedef struct {
    uint32_t number;
    bool yes;
} sfr_flag;

/* Fresh: a relation of that width with wire 0 alone, whose slot becomes 0, and no queries: its use counts become 0.
 * Questions 1, 2, 6, 10. Lent: slots, at least one word; uses, exactly a word per slot. A refusal leaves both as they
 * were. */
SFR_MUST_USE
sfr_relation_answer sfr_new_relation(uint32_t width,
                                     uint32_t *slots, size_t slots_len,
                                     uint32_t *uses, size_t uses_len);

/* Allocate: the next n wires, whose slots become F; answers the first, the wire count before the call. n may be 0.
 * Questions 1, 2, 5, 6. Lent: slots, a word per wire with the new ones. A refusal leaves slots and record as they
 * were. */
SFR_MUST_USE
sfr_relation_answer sfr_allocate_vars(sfr_relation rel, uint32_t *slots, size_t slots_len, uint32_t n);

/* Set: a wire's value; the same value again is accepted, as repeated.
 * Questions 1, 2, 3, 4, 7, 8. Lent: slots, a word per wire. A refusal leaves them as they were. */
SFR_MUST_USE
sfr_set_answer sfr_set_var(sfr_relation rel, uint32_t *slots, size_t slots_len, uint32_t var, uint32_t value);

/* Set list: the pairs in order, up to the shorter list's length.
 * Questions 1, 2; then 3, 4, 7, 8 pair by pair; after the common pairs 9. Lent: slots, a word per wire; vars and
 * values, only read. A refusal leaves the accepted pairs set, and else all as it was. */
SFR_MUST_USE
sfr_tally sfr_set_vars(sfr_relation rel,
                       uint32_t *slots, size_t slots_len,
                       const uint32_t *vars, size_t vars_len,
                       const uint32_t *values, size_t values_len);

/* Tickets: a wire set by each line of the text, in order. A line is 24 bytes, SFR_TICKET_LINE: a wire in 10 columns, a
 * space, grams in 12, a newline. Both numbers are decimal and right-justified, with blanks before them; none but 0 itself
 * starts with 0. The wire gets the grams in steps of 50 g, halves up: 25 g is 1 step.
 * Questions 1, 2; then 40, 3, 41, 7, 8 line by line. Lent: slots, a word per wire; text, of any length, only read. A
 * refusal leaves the accepted lines set, and else all as it was. */
SFR_MUST_USE
sfr_ticket_tally sfr_set_tickets(sfr_relation rel,
                                 uint32_t *slots, size_t slots_len,
                                 const uint8_t *text, size_t text_len);

/* Record: a query of inputs and outputs, whose cells are counted; unallocated wires are taken.
 * Questions 1, 2, 9, 3, 11 of the counts, 10. Lent: slots, a word per wire, only read; queries, 2w words for each with
 * the new one; uses, exactly a word per slot; input and output, exactly w words each, only read. A refusal leaves
 * queries, uses and record as they were. */
SFR_MUST_USE
sfr_relation_answer sfr_add_permutation(sfr_relation rel,
                                        const uint32_t *slots, size_t slots_len,
                                        uint32_t *queries, size_t queries_len,
                                        uint32_t *uses, size_t uses_len,
                                        const uint32_t *input, size_t input_len,
                                        const uint32_t *output, size_t output_len);

/* Mint: allocates w outputs, answered as by sfr_allocate_vars, and records the query, or does neither.
 * Questions 1, 2, 9, 3, 5, 6, 11 of the counts, 10. Lent: slots, a word per wire with the w new ones; queries, 2w words
 * for each with the new one; uses, exactly a word per slot; input, exactly w words, only read. A refusal leaves slots,
 * queries, uses and record as they were. */
SFR_MUST_USE
sfr_relation_answer sfr_allocate_permutation(sfr_relation rel,
                                             uint32_t *slots, size_t slots_len,
                                             uint32_t *queries, size_t queries_len,
                                             uint32_t *uses, size_t uses_len,
                                             const uint32_t *input, size_t input_len);

/* Withdraw a query: number i, counted from 0. Later ones move down by one, and the 2w words freed at their end become 0;
 * its cells are taken off the counts. Wires that it minted stay allocated.
 * Questions 1, 2, 45, 11 of the counts, 10. Lent: slots, a word per wire, only read; queries, 2w words for each; uses,
 * exactly a word per slot. A refusal leaves queries, uses and record as they were. */
SFR_MUST_USE
sfr_relation_answer sfr_withdraw_query(sfr_relation rel,
                                       const uint32_t *slots, size_t slots_len,
                                       uint32_t *queries, size_t queries_len,
                                       uint32_t *uses, size_t uses_len, uint32_t i);

/* Equation: weight times value, summed over the terms, is the image. Kept in order, repeats and zero weights too.
 * Questions 1, 2, 3 over all wires, 4 over all weights and the image, 10. Lent: equations, the used words and 2 + 2t
 * more for t terms; terms, only read. A refusal leaves equations and record as they were. */
SFR_MUST_USE
sfr_relation_answer sfr_add_equation(sfr_relation rel,
                                     uint32_t *equations, size_t equations_len,
                                     const sfr_weighted *terms, size_t terms_len,
                                     uint32_t image);

/* Withdraw an equation: number i, counted from 0. Later ones move down by one, and the words freed at their end become 0.
 * Questions 1, 2, 45, 11 of the equations' end. Lent: equations, the used words. A refusal leaves equations and record as
 * they were. */
SFR_MUST_USE
sfr_relation_answer sfr_withdraw_equation(sfr_relation rel,
                                          uint32_t *equations, size_t equations_len, uint32_t i);

/* Every weight of the list times the factor; by 0 too, which keeps the terms.
 * Questions 3 over all wires, 4 over all weights and the factor. Lent: terms, whose weights are written. A refusal
 * leaves the list as it was. */
SFR_MUST_USE
uint32_t sfr_scale(sfr_weighted *terms, size_t terms_len, uint32_t factor);

/* Value of a wire: its slot; none where that is F or the wire isn't allocated.
 * Questions 1, 2, 3. Lent: slots, a word per wire, only read. */
SFR_MUST_USE
sfr_value sfr_value_of(sfr_relation rel, const uint32_t *slots, size_t slots_len, uint32_t var);

/* Is the wire allocated? Questions 1, 2 of the wire count, 3. Nothing is lent. */
SFR_MUST_USE
sfr_flag sfr_is_allocated(sfr_relation rel, uint32_t var);

/* ---- Relations on one allocator. ----
 *
 * Up to 8 relations, of any widths, over one slot store and one wire count. They are numbered from 0 as they are opened.
 * Each has queries, use counts and equations of its own, and a quota: how many wires it may allocate and mint. A wire
 * that one of them sets is set for all. A call is handed the allocator, the relation's number and its record, as the
 * last calls gave them back; it is the call of the same name without _on, with the allocator's wire count as the
 * relation's. Where nothing is opened, 2 isn't asked of the wire count, which may then be anything. */

/* What they share, handed in and back by value: the wire count, and how many relations are opened. All zeros before the
 * first opening. */
typedef struct {
    uint32_t vars;
    uint32_t opened;
} sfr_var_allocator;

/* A relation's own record, handed in and back by value: that of a single relation without the wire count, its quota, and
 * how many wires it obtained. */
typedef struct {
    uint32_t width;
    uint32_t queries;
    uint32_t equations;
    uint32_t words;
    uint32_t stray;
    uint32_t quota;
    uint32_t obtained;
} sfr_shared_relation;

/* `first` is the number of the relation that is opened, or the first wire that an allocation or a mint answers; 0
 * elsewhere and after a refusal. A refused call gives back both records as they were given, a refused opening the
 * allocator as it was given and a relation's record of zeros. */
typedef struct {
    uint32_t number;
    uint32_t first;
    sfr_var_allocator allocator;
    sfr_shared_relation relation;
} sfr_shared_answer;

/* Opens a relation of that width and quota, and answers its number: how many were opened before. The first opening
 * does to slots and wire count what sfr_new_relation does, a later one leaves both; each fills the relation's own use
 * store with 0. The quota may be any number.
 * Questions 1, 2, 42, 6, 10. Lent: slots, at least one word, and a word per wire; uses, exactly a word per slot. A
 * refusal leaves both as they were. */
SFR_MUST_USE
sfr_shared_answer sfr_with_allocator(sfr_var_allocator allocator, uint32_t width, uint32_t quota,
                                     uint32_t *slots, size_t slots_len,
                                     uint32_t *uses, size_t uses_len);

/* Allocate: the next n wires, whose slots become F, counted among those that the relation obtained; answers the first,
 * the wire count before the call. n may be 0.
 * Questions 1, 2, 42, 5, 43, 6. Lent: slots, a word per wire with the new ones. A refusal leaves slots and records as
 * they were. */
SFR_MUST_USE
sfr_shared_answer sfr_allocate_vars_on(sfr_var_allocator allocator, uint32_t index, sfr_shared_relation rel,
                                       uint32_t *slots, size_t slots_len, uint32_t n);

/* Set: a wire's value, whoever allocated it; the same value again is accepted, as repeated, whoever set it first.
 * Questions 1, 2, 42, 3, 4, 7, 8. Lent: slots, a word per wire. A refusal leaves them as they were. */
SFR_MUST_USE
sfr_set_answer sfr_set_var_on(sfr_var_allocator allocator, uint32_t index, sfr_shared_relation rel,
                              uint32_t *slots, size_t slots_len, uint32_t var, uint32_t value);

/* Set list: the pairs in order, up to the shorter list's length.
 * Questions 1, 2, 42; then 3, 4, 7, 8 pair by pair; after the common pairs 9. Lent: slots, a word per wire; vars and
 * values, only read. A refusal leaves the accepted pairs set, and else all as it was. */
SFR_MUST_USE
sfr_tally sfr_set_vars_on(sfr_var_allocator allocator, uint32_t index, sfr_shared_relation rel,
                          uint32_t *slots, size_t slots_len,
                          const uint32_t *vars, size_t vars_len,
                          const uint32_t *values, size_t values_len);

/* Tickets: a wire set by each line of the text, in order; a line is as for sfr_set_tickets.
 * Questions 1, 2, 42; then 40, 3, 41, 7, 8 line by line. Lent: slots, a word per wire; text, of any length, only read. A
 * refusal leaves the accepted lines set, and else all as it was. */
SFR_MUST_USE
sfr_ticket_tally sfr_set_tickets_on(sfr_var_allocator allocator, uint32_t index, sfr_shared_relation rel,
                                    uint32_t *slots, size_t slots_len,
                                    const uint8_t *text, size_t text_len);

/* Record: a query of inputs and outputs, whose cells are counted; unallocated wires are taken.
 * Questions 1, 2, 42, 9, 3, 11 of the counts, 10. Lent: slots, a word per wire, only read; the relation's queries, 2w
 * words for each with the new one, and its uses, exactly a word per slot; input and output, exactly w words each, only
 * read. A refusal leaves queries, uses and records as they were. */
SFR_MUST_USE
sfr_shared_answer sfr_add_permutation_on(sfr_var_allocator allocator, uint32_t index, sfr_shared_relation rel,
                                         const uint32_t *slots, size_t slots_len,
                                         uint32_t *queries, size_t queries_len,
                                         uint32_t *uses, size_t uses_len,
                                         const uint32_t *input, size_t input_len,
                                         const uint32_t *output, size_t output_len);

/* Mint: allocates w outputs, answered as by sfr_allocate_vars_on, and records the query, or does neither: a refused mint
 * takes nothing from the quota.
 * Questions 1, 2, 42, 9, 3, 5, 43, 6, 11 of the counts, 10. Lent: slots, a word per wire with the w new ones; the
 * relation's queries, 2w words for each with the new one, and its uses, exactly a word per slot; input, exactly w words,
 * only read. A refusal leaves slots, queries, uses and records as they were. */
SFR_MUST_USE
sfr_shared_answer sfr_allocate_permutation_on(sfr_var_allocator allocator, uint32_t index, sfr_shared_relation rel,
                                              uint32_t *slots, size_t slots_len,
                                              uint32_t *queries, size_t queries_len,
                                              uint32_t *uses, size_t uses_len,
                                              const uint32_t *input, size_t input_len);

/* Withdraw a query of the relation: number i, counted from 0. Later ones move down by one, and the 2w words freed at
 * their end become 0; its cells are taken off the counts. Wires that it minted stay allocated, and obtained.
 * Questions 1, 2, 42, 45, 11 of the counts, 10. Lent: slots, a word per wire, only read; the relation's queries, 2w words
 * for each, and its uses, exactly a word per slot. A refusal leaves queries, uses and records as they were. */
SFR_MUST_USE
sfr_shared_answer sfr_withdraw_query_on(sfr_var_allocator allocator, uint32_t index, sfr_shared_relation rel,
                                        const uint32_t *slots, size_t slots_len,
                                        uint32_t *queries, size_t queries_len,
                                        uint32_t *uses, size_t uses_len, uint32_t i);

/* Equation: weight times value, summed over the terms, is the image. Kept in order, repeats and zero weights too.
 * Questions 1, 2, 42, 3 over all wires, 4 over all weights and the image, 10. Lent: the relation's equations, the used
 * words and 2 + 2t more for t terms; terms, only read. A refusal leaves equations and records as they were. */
SFR_MUST_USE
sfr_shared_answer sfr_add_equation_on(sfr_var_allocator allocator, uint32_t index, sfr_shared_relation rel,
                                      uint32_t *equations, size_t equations_len,
                                      const sfr_weighted *terms, size_t terms_len,
                                      uint32_t image);

/* Withdraw an equation of the relation: number i, counted from 0. Later ones move down by one, and the words freed at
 * their end become 0.
 * Questions 1, 2, 42, 45, 11 of the equations' end. Lent: the relation's equations, the used words. A refusal leaves
 * equations and records as they were. */
SFR_MUST_USE
sfr_shared_answer sfr_withdraw_equation_on(sfr_var_allocator allocator, uint32_t index, sfr_shared_relation rel,
                                           uint32_t *equations, size_t equations_len, uint32_t i);

/* Value of a wire: its slot; none where that is F or the wire isn't allocated.
 * Questions 1, 2, 42, 3. Lent: slots, a word per wire, only read. */
SFR_MUST_USE
sfr_value sfr_value_of_on(sfr_var_allocator allocator, uint32_t index, sfr_shared_relation rel,
                          const uint32_t *slots, size_t slots_len, uint32_t var);

/* Is the wire allocated, by whichever relation? Questions 1, 2 of the allocator, 42, 3. Nothing is lent. */
SFR_MUST_USE
sfr_flag sfr_is_allocated_on(sfr_var_allocator allocator, uint32_t index, sfr_shared_relation rel, uint32_t var);

/* ---- Permutations by their parameters, and traces. ---- */

/* A trace's record, handed in and back by value; a new trace has 0 steps. */
typedef struct {
    uint32_t width;
    uint32_t steps;
} sfr_trace;

/* A refused call gives back the record it was given, a refused read a record of zeros. */
typedef struct {
    uint32_t number;
    sfr_trace trace;
} sfr_trace_answer;

/* How many bytes were written, 0 after a refusal. */
typedef struct {
    uint32_t number;
    size_t len;
} sfr_written;

/* Turns the state in place: the permutation, evaluated once.
 * Questions 1, 2, 9, 4, 17. Lent: params, exactly R(w+1)+w*w words, only read; state, exactly w words. A refusal leaves
 * the state as it was. */
SFR_MUST_USE
uint32_t sfr_permute(uint32_t width, uint32_t rounds, const uint32_t *params, size_t params_len,
                     uint32_t *state, size_t state_len);

/* The state behind a digest: the one input that the permutation turns into the output, put into a list of its own. Where
 * the other questions say yes, 44 is answered exactly where two different inputs share an output.
 * Questions 1, 2, 9 of both lists, 4 of the output, 17, 44. Lent: params, exactly R(w+1)+w*w words, and output, exactly w
 * words, only read; input, exactly w words, which may hold anything before. A refusal leaves input as it was. */
SFR_MUST_USE
uint32_t sfr_permute_inverse(uint32_t width, uint32_t rounds, const uint32_t *params, size_t params_len,
                             const uint32_t *output, size_t output_len,
                             uint32_t *input, size_t input_len);

/* Evaluates a step and appends it: the inputs, then the w outputs that the permutation makes of them.
 * Questions 1, 2, 9, 4, 17, 10. Lent: trace, 2w words for each step with the new one; input, exactly w words, and params,
 * exactly R(w+1)+w*w words, only read. A refusal leaves trace and record as they were. */
SFR_MUST_USE
sfr_trace_answer sfr_evaluate_step(sfr_trace rec, uint32_t *trace, size_t trace_len,
                                   const uint32_t *input, size_t input_len,
                                   uint32_t rounds, const uint32_t *params, size_t params_len);

/* Appends a given step, which isn't evaluated.
 * Questions 1, 2, 9, 4, 10. Lent: trace, 2w words for each step with the new one; input and output, exactly w words
 * each, only read. A refusal leaves trace and record as they were. */
SFR_MUST_USE
sfr_trace_answer sfr_append_step(sfr_trace rec, uint32_t *trace, size_t trace_len,
                                 const uint32_t *input, size_t input_len,
                                 const uint32_t *output, size_t output_len);

/* Writes a trace as SFRW, SFR_SFRW_BYTES: 17 + 8ws for s steps.
 * Questions 1, 2, 11 of the held steps, 10. Lent: trace, 2w words per step, only read; out, as many bytes as are
 * written. A refusal leaves out as it was. */
SFR_MUST_USE
sfr_written sfr_witness_to_bytes(sfr_trace rec, const uint32_t *trace, size_t trace_len,
                                 uint8_t *out, size_t out_len);

/* Reads SFRW of that width.
 * Questions 1, 2; field by field 20 and 21 to 24; per step 20 and 4 for each unit, then 10; last 28. Lent: bytes,
 * exactly as written, only read; trace, 2w words per step, which becomes the steps and then 0 to its end. A refusal
 * leaves the trace all 0. */
SFR_MUST_USE
sfr_trace_answer sfr_witness_from_bytes(uint32_t width, const uint8_t *bytes, size_t bytes_len,
                                        uint32_t *trace, size_t trace_len);

/* ---- Instances. ---- */

/* An instance's record: a relation's, with the public count. Its wire count may be any u32. */
typedef struct {
    uint32_t width;
    uint32_t vars;
    uint32_t queries;
    uint32_t equations;
    uint32_t words;
    uint32_t publics;
} sfr_instance;

/* A record of zeros after a refusal. */
typedef struct {
    uint32_t number;
    sfr_instance instance;
} sfr_instance_answer;

/* A part of lent bytes: len of them, from byte at on. */
typedef struct {
    size_t at;
    size_t len;
} sfr_span;

/* The label is the very part of the input that label tells. Zeros, and no label, after a refusal. */
typedef struct {
    uint32_t number;
    sfr_instance instance;
    sfr_span label;
} sfr_instance_read;

/* Which of its two parts a heading is: the name where named, else the label; and that part's length. */
typedef struct {
    bool named;
    size_t len;
} sfr_heading_answer;

/* The gate: an instance of the relation, whose publics are the assigned wires in index order.
 * Questions 1, 2, 11, 10, 16, 12, 13; then term by term 14, 15; 13 and 15 go by the use counts and the stray count,
 * whatever they are. Lent: label, slots, queries, equations and uses, exactly a word per slot, as the relation's calls
 * left them, only read; publics, 2 words per assigned wire, which become the pairs and then 0 to their end; scratch, a
 * word per wire. A refusal leaves publics and scratch all 0. */
SFR_MUST_USE
sfr_instance_answer sfr_compile(sfr_relation rel,
                                const uint8_t *label, size_t label_len,
                                const uint32_t *slots, size_t slots_len,
                                const uint32_t *queries, size_t queries_len,
                                const uint32_t *equations, size_t equations_len,
                                const uint32_t *uses, size_t uses_len,
                                uint32_t *publics, size_t publics_len,
                                uint32_t *scratch, size_t scratch_len);

/* The gate of a relation on a shared allocator: as sfr_compile, with all wires and everybody's sets, and the relation's
 * own queries, equations and use counts. Later calls don't change the instance.
 * Questions 1, 2, 42, 11, 10, 16, 12, 13; then term by term 14, 15. Lent: label, slots, and the relation's queries,
 * equations and uses, exactly a word per slot, as the calls left them, only read; publics, 2 words per assigned wire,
 * which become the pairs and then 0 to their end; scratch, a word per wire. A refusal leaves publics and scratch
 * all 0. */
SFR_MUST_USE
sfr_instance_answer sfr_compile_on(sfr_var_allocator allocator, uint32_t index, sfr_shared_relation rel,
                                   const uint8_t *label, size_t label_len,
                                   const uint32_t *slots, size_t slots_len,
                                   const uint32_t *queries, size_t queries_len,
                                   const uint32_t *equations, size_t equations_len,
                                   const uint32_t *uses, size_t uses_len,
                                   uint32_t *publics, size_t publics_len,
                                   uint32_t *scratch, size_t scratch_len);

/* Writes an instance, gated or not, as SFRI, SFR_SFRI_BYTES: 33, the label's, 8 per public, 8w per query, 4 per used word.
 * Questions 1, 2, 11, 10. Lent: label and the three stores, only read; out, as many bytes as are written. A refusal
 * leaves out as it was. */
SFR_MUST_USE
sfr_written sfr_instance_to_bytes(sfr_instance ins,
                                  const uint8_t *label, size_t label_len,
                                  const uint32_t *publics, size_t publics_len,
                                  const uint32_t *queries, size_t queries_len,
                                  const uint32_t *equations, size_t equations_len,
                                  uint8_t *out, size_t out_len);

/* Reads SFRI of that width.
 * Questions 1, 2; field by field 20 and 21 to 25; per item 20 for each word, 3 for a wire and 4 for a unit, then 10;
 * 27; 16, 12, 13; term by term 14, 15; last 28. Lent: bytes, exactly as written, only read; publics, queries and
 * equations, which become the words read and then 0 to their end; scratch, a word per wire. A refusal leaves the three
 * stores and scratch all 0. */
SFR_MUST_USE
sfr_instance_read sfr_instance_from_bytes(uint32_t width, const uint8_t *bytes, size_t bytes_len,
                                          uint32_t *publics, size_t publics_len,
                                          uint32_t *queries, size_t queries_len,
                                          uint32_t *equations, size_t equations_len,
                                          uint32_t *scratch, size_t scratch_len);

/* Reads SFRI of that width strictly: the file lists wire 0 with value 0, as provers insist.
 * Questions 1, 2; field by field 20 and 21 to 25; per item 20 for each word, 3 for a wire and 4 for a unit, then 10;
 * 27, 46; 16, 12, 13; term by term 14, 15; last 28. Lent: bytes, exactly as written, only read; publics, queries and
 * equations, which become the words read and then 0 to their end; scratch, a word per wire. A refusal leaves the three
 * stores and scratch all 0. */
SFR_MUST_USE
sfr_instance_read sfr_strict_instance_from_bytes(uint32_t width, const uint8_t *bytes, size_t bytes_len,
                                                 uint32_t *publics, size_t publics_len,
                                                 uint32_t *queries, size_t queries_len,
                                                 uint32_t *equations, size_t equations_len,
                                                 uint32_t *scratch, size_t scratch_len);

/* Value of a wire in held publics: that of the last pair that lists it, if any does.
 * Questions 1, 2, 3. Lent: publics, 2 words per pair, only read. */
SFR_MUST_USE
sfr_value sfr_public_value(sfr_instance ins, const uint32_t *publics, size_t publics_len, uint32_t var);

/* The heading: the label, or where that has no bytes the permutation's name. No questions. Lent: label and name, only
 * read; the heading is that very part of what is lent. */
sfr_heading_answer sfr_heading(const uint8_t *label, size_t label_len, const uint8_t *name, size_t name_len);

/* ---- The check. ---- */

/* Is the trace, of the instance's width, a witness of the instance, gated or not, under the permutation? Yes is 0.
 * Questions 1, 2, 17, 11, 16, 31; 36 of the publics; per step 32, then per cell 36, 33; per equation 34 term by term,
 * then 35. Where publics list a wire twice, the later value counts. Lent: label, the three stores, trace, 2w words per
 * step, and params, exactly R(w+1)+w*w words, only read; scratch, a word per wire. Whatever the answer, scratch is all 0
 * afterwards and the rest as it was. */
SFR_MUST_USE
uint32_t sfr_is_witness_valid(sfr_instance ins,
                              const uint8_t *label, size_t label_len,
                              const uint32_t *publics, size_t publics_len,
                              const uint32_t *queries, size_t queries_len,
                              const uint32_t *equations, size_t equations_len,
                              uint32_t steps, const uint32_t *trace, size_t trace_len,
                              uint32_t rounds, const uint32_t *params, size_t params_len,
                              uint32_t *scratch, size_t scratch_len);

/* ---- What a number means. ---- */

/* -- docs/numbers.txt, written here by tools/numbers: */
/* What a number means, a statement without a full stop: "accepted" of 0, and "no call answers this number" of one
 * that isn't in the list. */
static inline const char *sfr_meaning(uint32_t number)
{
    switch (number) {
    case 0: return "accepted";
    case 1: return "the width isn't from 1 to 24";
    case 2: return "a lent list is too long, or a count is out of range or more than its store holds";
    case 3: return "a wire is 2^30 or more";
    case 4: return "a word that must be a unit is p (2013265921) or more";
    case 5: return "there would be more than 2^30 wires";
    case 6: return "there are fewer slots than there would be wires";
    case 7: return "the wire to be set isn't allocated";
    case 8: return "the wire already has another value";
    case 9: return "a list isn't as long as the width, or the two lists of a set list differ in length";
    case 10: return "a list that would be written to is too short, or there isn't exactly one use count per slot";
    case 11: return "the label or what a store holds isn't sound, or a count would be below 0 or above 2^30";
    case 12: return "a public wire isn't below the wire count";
    case 13: return "a query's wire isn't below the wire count (a gate goes by the use counts)";
    case 14: return "a term's wire isn't below the wire count";
    case 15:
        return "a term has a weight other than 0, and its wire is neither public nor in a query (a gate goes by the "
               "use counts)";
    case 16: return "scratch has fewer words than there are wires";
    case 17: return "the parameters have over 128 rounds, a wrong length, a kind over 1 or a unit of p or more";
    case 20: return "the bytes end before the word or field to be read does";
    case 21: return "the bytes don't begin with SFRI for an instance, or SFRW for a trace";
    case 22: return "the version in the bytes isn't 1";
    case 23: return "the width in the bytes isn't the one asked for";
    case 24: return "the unit length in the bytes isn't 4";
    case 25: return "the label in the bytes isn't UTF-8";
    case 27: return "the public wires in the bytes don't strictly increase";
    case 28: return "bytes are left over at the end";
    case 31: return "the trace hasn't exactly one step per query";
    case 32: return "a step's outputs aren't what the permutation makes of its inputs";
    case 33: return "a step gives a wire another value than it already has";
    case 34: return "a term's wire has no value, neither public nor from a step";
    case 35: return "an equation's sum isn't its image";
    case 36: return "a public or query wire isn't below the wire count";
    case 40: return "a ticket line isn't in its form, or is cut short at the text's end";
    case 41: return "a ticket's grams come to p (2013265921) steps or more";
    case 42: return "no relation of this number is opened, or a ninth would be";
    case 43: return "the relation would have obtained more wires than its quota";
    case 44: return "there are rounds and the matrix is singular: two different inputs share an output";
    case 45: return "there is no query or equation of this number";
    case 46: return "there are no wires, or wire 0 isn't listed with value 0";
    default: return "no call answers this number";
    }
}

/* The parts that 11 asks. */
typedef enum {
    SFR_SOUND, /* none of them is unsound */
    SFR_PART_EQUATIONS,
    SFR_PART_PUBLICS,
    SFR_PART_QUERIES,
    SFR_PART_SLOTS,
    SFR_PART_TRACE,
    SFR_PART_LABEL,
    SFR_PART_COUNTS
} sfr_part;

/* What is wrong with a part of 11, as sfr_meaning has it. */
static inline const char *sfr_part_meaning(sfr_part part)
{
    switch (part) {
    case SFR_SOUND: return "no part is unsound";
    case SFR_PART_EQUATIONS:
        return "the equations don't end exactly at the used words, or hold a wire of 2^30 or more or a unit of p or "
               "more";
    case SFR_PART_PUBLICS: return "a public wire is 2^30 or more, or its value p or more";
    case SFR_PART_QUERIES: return "a query's wire is 2^30 or more";
    case SFR_PART_SLOTS: return "an allocated wire's slot is neither a unit nor F";
    case SFR_PART_TRACE: return "a word of a step is p or more";
    case SFR_PART_LABEL: return "the label isn't UTF-8";
    case SFR_PART_COUNTS: return "a use count or the stray count would be below 0 or above 2^30";
    default: return "no part of 11";
    }
}
/* -- end of docs/numbers.txt */

/* After an 11, the four functions below tell which part was the first to be unsound. They are lent what the refused call
 * was, and only read it. They put proved calls to one part at a time, which answer 11 where that part is unsound, and
 * decide nothing themselves. Each is named with the call that it speaks of, and where that one wouldn't come to 11 here,
 * but to 1, say, it tells SFR_SOUND. Every other call asks one part: recording, minting and withdrawing a query the counts,
 * and withdrawing an equation whether the equations end exactly at the used words. */

/* Of sfr_instance_to_bytes. After an 11 of sfr_is_witness_valid it tells that call's part too, or SFR_SOUND where it is the
 * trace, which the check asks last. */
static inline sfr_part sfr_unsound_part(sfr_instance ins,
                                        const uint8_t *label, size_t label_len,
                                        const uint32_t *publics, size_t publics_len,
                                        const uint32_t *queries, size_t queries_len,
                                        const uint32_t *equations, size_t equations_len)
{
    const sfr_instance e = {ins.width, 0, 0, ins.equations, ins.words, 0};
    const sfr_instance p = {ins.width, 0, 0, 0, 0, ins.publics};
    const sfr_instance q = {ins.width, 0, ins.queries, 0, 0, 0};
    if (sfr_instance_to_bytes(ins, label, label_len, publics, publics_len, queries, queries_len,
                              equations, equations_len, NULL, 0).number != 11)
        return SFR_SOUND;
    if (sfr_instance_to_bytes(e, NULL, 0, NULL, 0, NULL, 0, equations, equations_len, NULL, 0).number == 11)
        return SFR_PART_EQUATIONS;
    if (sfr_instance_to_bytes(p, NULL, 0, publics, publics_len, NULL, 0, NULL, 0, NULL, 0).number == 11)
        return SFR_PART_PUBLICS;
    if (sfr_instance_to_bytes(q, NULL, 0, NULL, 0, queries, queries_len, NULL, 0, NULL, 0).number == 11)
        return SFR_PART_QUERIES;
    return SFR_PART_LABEL;
}

/* Of the gate, sfr_compile. */
static inline sfr_part sfr_unsound_held(sfr_relation rel,
                                        const uint8_t *label, size_t label_len,
                                        const uint32_t *slots, size_t slots_len,
                                        const uint32_t *queries, size_t queries_len,
                                        const uint32_t *equations, size_t equations_len)
{
    const sfr_instance recorded = {rel.width, 0, rel.queries, rel.equations, rel.words, 0};
    const sfr_relation wires = {rel.width, rel.vars, 0, 0, 0, 0};
    sfr_part part;
    if (sfr_compile(rel, label, label_len, slots, slots_len, queries, queries_len, equations, equations_len,
                    NULL, 0, NULL, 0, NULL, 0).number != 11)
        return SFR_SOUND;
    part = sfr_unsound_part(recorded, NULL, 0, NULL, 0, queries, queries_len, equations, equations_len);
    if (part != SFR_SOUND)
        return part;
    if (sfr_compile(wires, NULL, 0, slots, slots_len, NULL, 0, NULL, 0, NULL, 0, NULL, 0, NULL, 0).number == 11)
        return SFR_PART_SLOTS;
    return SFR_PART_LABEL;
}

/* Of the gate of a relation on an allocator, sfr_compile_on. */
static inline sfr_part sfr_unsound_held_on(sfr_var_allocator allocator, uint32_t index, sfr_shared_relation rel,
                                           const uint8_t *label, size_t label_len,
                                           const uint32_t *slots, size_t slots_len,
                                           const uint32_t *queries, size_t queries_len,
                                           const uint32_t *equations, size_t equations_len)
{
    const sfr_relation alone = {rel.width, allocator.vars, rel.queries, rel.equations, rel.words, rel.stray};
    if (sfr_compile_on(allocator, index, rel, label, label_len, slots, slots_len, queries, queries_len,
                       equations, equations_len, NULL, 0, NULL, 0, NULL, 0).number != 11)
        return SFR_SOUND;
    return sfr_unsound_held(alone, label, label_len, slots, slots_len, queries, queries_len, equations, equations_len);
}

/* Of sfr_witness_to_bytes. For the trace of a check the record is {ins.width, steps}. */
static inline sfr_part sfr_unsound_trace(sfr_trace rec, const uint32_t *trace, size_t trace_len)
{
    return sfr_witness_to_bytes(rec, trace, trace_len, NULL, 0).number == 11 ? SFR_PART_TRACE : SFR_SOUND;
}

#ifdef __cplusplus
}
#endif

#endif /* SFR_H */
