//! Relations on one allocator: document 02's orders, and its corners.

use super::*;

/// Relations with their stores, over one allocator and one slot store.
#[derive(Clone)]
struct Plant {
    allocator: VarAllocator,
    slots: Vec<u32>,
    mixers: Vec<Mixer>,
}

/// A relation with its own stores, lent to one call after the other.
#[derive(Clone)]
struct Mixer {
    rel: SharedRelation,
    queries: Vec<u32>,
    equations: Vec<u32>,
    uses: Vec<u32>,
}

impl Plant {
    /// So many slots, and a relation opened for each width and quota.
    fn opened(slots: usize, relations: &[(u32, u32)]) -> Self {
        let mut plant = Self {
            allocator: VarAllocator::default(),
            slots: vec![DIRT; slots],
            mixers: vec![],
        };
        for (index, &(width, quota)) in relations.iter().enumerate() {
            assert_eq!(plant.open(width, quota), (0, index as u32));
        }
        plant
    }

    fn open(&mut self, width: u32, quota: u32) -> (u32, u32) {
        let mut uses = vec![DIRT; self.slots.len()];
        let answer = with_allocator(self.allocator, width, quota, &mut self.slots, &mut uses);
        if answer.number == 0 {
            assert!(all_zero(&uses));
            self.allocator = answer.allocator;
            self.mixers.push(Mixer {
                rel: answer.relation,
                queries: vec![DIRT; 32],
                equations: vec![DIRT; 32],
                uses,
            });
        } else {
            assert!(uses.iter().all(|&count| count == DIRT));
            assert_eq!(answer.allocator, self.allocator);
            assert_eq!(answer.relation, SharedRelation::default());
        }
        (answer.number, answer.first)
    }

    fn keep(&mut self, index: u32, answer: SharedAnswer) -> (u32, u32) {
        if answer.number != 0 {
            assert_eq!(answer.allocator, self.allocator);
            assert_eq!(answer.relation, self.mixers[index as usize].rel);
        }
        self.allocator = answer.allocator;
        self.mixers[index as usize].rel = answer.relation;
        (answer.number, answer.first)
    }

    fn allocate(&mut self, index: u32, count: u32) -> (u32, u32) {
        let rel = self.mixers[index as usize].rel;
        let answer = allocate_vars_on(self.allocator, index, rel, &mut self.slots, count);
        self.keep(index, answer)
    }

    fn set(&mut self, index: u32, var: u32, value: u32) -> u32 {
        self.set_answer(index, var, value).0
    }

    fn set_answer(&mut self, index: u32, var: u32, value: u32) -> (u32, bool) {
        let rel = self.mixers[index as usize].rel;
        let answer = set_var_on(self.allocator, index, rel, &mut self.slots, var, value);
        (answer.number, answer.fresh)
    }

    fn mint(&mut self, index: u32, input: &[u32]) -> (u32, u32) {
        let mixer = &mut self.mixers[index as usize];
        let answer = allocate_permutation_on(
            self.allocator,
            index,
            mixer.rel,
            &mut self.slots,
            &mut mixer.queries,
            &mut mixer.uses,
            input,
        );
        self.keep(index, answer)
    }

    fn record(&mut self, index: u32, input: &[u32], output: &[u32]) -> u32 {
        let mixer = &mut self.mixers[index as usize];
        let answer = add_permutation_on(
            self.allocator,
            index,
            mixer.rel,
            &self.slots,
            &mut mixer.queries,
            &mut mixer.uses,
            input,
            output,
        );
        self.keep(index, answer).0
    }

    fn withdraw_query(&mut self, index: u32, query: u32) -> u32 {
        let mixer = &mut self.mixers[index as usize];
        let answer = withdraw_query_on(
            self.allocator,
            index,
            mixer.rel,
            &self.slots,
            &mut mixer.queries,
            &mut mixer.uses,
            query,
        );
        self.keep(index, answer).0
    }

    fn withdraw_equation(&mut self, index: u32, equation: u32) -> u32 {
        let Mixer { rel, equations, .. } = &mut self.mixers[index as usize];
        let answer = withdraw_equation_on(self.allocator, index, *rel, equations, equation);
        self.keep(index, answer).0
    }

    fn equation(&mut self, index: u32, terms: &[(u32, u32)], image: u32) -> u32 {
        let mixer = &mut self.mixers[index as usize];
        let (terms, equations) = (weighted(terms), &mut mixer.equations);
        let answer = add_equation_on(self.allocator, index, mixer.rel, equations, &terms, image);
        self.keep(index, answer).0
    }

    /// The gate with ample output store and scratch, both dirty before.
    fn gate(&self, index: u32) -> (u32, Held) {
        let mixer = &self.mixers[index as usize];
        let (mut publics, mut scratch) = (vec![DIRT; 64], vec![DIRT; 64]);
        let answer = compile_on(
            self.allocator,
            index,
            mixer.rel,
            b"",
            &self.slots,
            &mixer.queries,
            &mixer.equations,
            &mixer.uses,
            &mut publics,
            &mut scratch,
        );
        assert!(all_zero(&scratch));
        assert!(answer.number == 0 || all_zero(&publics));
        let held = Held {
            ins: answer.instance,
            label: vec![],
            publics,
            queries: mixer.queries.clone(),
            equations: mixer.equations.clone(),
        };
        (answer.number, held)
    }

    fn count(&self) -> u32 {
        self.allocator.vars_count
    }

    /// 02: wires in the store are always 1 plus what each relation obtained.
    fn adds_up(&self) -> bool {
        let obtained: u32 = self.mixers.iter().map(|mixer| mixer.rel.obtained).sum();
        self.count() == 1 + obtained
    }
}

/// The numbers of every call of this relation on these two records and stores of so many words,
/// in the order allocate, set, set list, tickets, record, mint, equation, value, is allocated,
/// gate, query withdrawn, equation withdrawn: with arguments that later questions say no to.
/// Nothing lent is changed.
fn numbers(allocator: VarAllocator, index: u32, rel: SharedRelation, len: usize) -> [u32; 12] {
    let (mut slots, mut words) = (vec![DIRT; len], vec![DIRT; len]);
    let uses = &mut vec![DIRT; len + 1];
    let (mut publics, mut scratch) = ([DIRT], [DIRT]);
    let numbers = [
        allocate_vars_on(allocator, index, rel, &mut slots, u32::MAX).number,
        set_var_on(allocator, index, rel, &mut slots, M, P).number,
        set_vars_on(allocator, index, rel, &mut slots, &[M], &[0, 0]).number,
        set_tickets_on(allocator, index, rel, &mut slots, b"no ticket").number,
        add_permutation_on(
            allocator,
            index,
            rel,
            &slots,
            &mut words,
            uses,
            &[M; 30],
            &[],
        )
        .number,
        allocate_permutation_on(
            allocator, index, rel, &mut slots, &mut words, uses, &[M; 30],
        )
        .number,
        add_equation_on(allocator, index, rel, &mut words, &weighted(&[(M, P)]), P).number,
        value_on(allocator, index, rel, &slots, M).number,
        is_allocated_on(allocator, index, rel, M).number,
        compile_on(
            allocator,
            index,
            rel,
            &[0xC0],
            &slots,
            &words.clone(),
            &words.clone(),
            uses,
            &mut publics,
            &mut scratch,
        )
        .number,
        withdraw_query_on(allocator, index, rel, &slots, &mut words, uses, u32::MAX).number,
        withdraw_equation_on(allocator, index, rel, &mut words, u32::MAX).number,
    ];
    let lent = slots.iter().chain(&words).chain(uses.iter());
    assert!(lent.into_iter().all(|&word| word == DIRT));
    assert_eq!((publics, scratch), ([0], [0]));
    numbers
}

const REL: SharedRelation = SharedRelation {
    width: 1,
    queries: 0,
    equations: 0,
    words: 0,
    stray: 0,
    quota: 9,
    obtained: 0,
};

#[test]
fn openings_in_turn() {
    let mut plant = Plant::opened(4, &[(3, 2)]);
    assert_eq!(plant.slots, [0, DIRT, DIRT, DIRT]);
    assert_eq!((plant.count(), plant.allocator.opened), (1, 1));
    assert_eq!(plant.allocate(0, 2), (0, 1));
    // A later opening leaves slots and count, a slot 0 of another word too.
    plant.slots[0] = 5;
    for index in 1..8 {
        assert_eq!(plant.open(24 - index, u32::MAX), (0, index));
    }
    assert_eq!(plant.slots, [5, F, F, DIRT]);
    assert_eq!((plant.count(), plant.allocator.opened), (3, 8));
    assert_eq!(plant.mixers[7].rel.quota, u32::MAX);
    assert_eq!(plant.open(1, 0), (42, 0));
    assert_eq!(plant.open(0, 0), (1, 0));
    assert_eq!(plant.open(25, 0), (1, 0));
    plant.slots.truncate(2);
    assert_eq!(plant.open(1, 0), (2, 0));
}

#[test]
fn questions_of_an_opening() {
    let open = |width, vars_count, opened, len| {
        let allocator = VarAllocator { vars_count, opened };
        let (mut slots, mut uses) = (vec![DIRT; len], vec![DIRT; len]);
        let answer = with_allocator(allocator, width, 7, &mut slots, &mut uses);
        if answer.number != 0 || opened > 0 {
            assert!(slots.iter().all(|&slot| slot == DIRT));
        }
        let left = if answer.number == 0 { 0 } else { DIRT };
        assert!(uses.iter().all(|&count| count == left));
        if answer.number != 0 {
            assert_eq!(answer.allocator, allocator);
            assert_eq!(
                (answer.first, answer.relation),
                (0, SharedRelation::default())
            );
        }
        answer.number
    };
    // Nothing opened: the count may be anything.
    for vars_count in [0, 1, 9, M, M + 1, u32::MAX] {
        assert_eq!(open(1, vars_count, 0, 4), 0);
        assert_eq!(open(1, vars_count, 0, 0), 6);
        assert_eq!(open(0, vars_count, 0, 0), 1);
        assert_eq!(open(1, vars_count, 9, 4), 2);
        assert_eq!(open(25, vars_count, 9, 4), 1);
    }
    for opened in [1, 7, 8] {
        for (vars_count, len) in [(0, 4), (0, 0), (5, 4), (1, 0), (M + 1, 4), (u32::MAX, 4)] {
            assert_eq!(open(1, vars_count, opened, len), 2);
        }
        let last = if opened == 8 { 42 } else { 0 };
        assert_eq!(open(1, 4, opened, 4), last);
        assert_eq!(open(24, 1, opened, 4), last);
    }
    assert_eq!(open(1, 1, u32::MAX, 4), 2);
    let mut long = vec![0; M as usize + 1];
    let none = VarAllocator::default();
    assert_eq!(with_allocator(none, 1, 0, &mut long, &mut []).number, 2);
    assert_eq!(with_allocator(none, 1, 0, &mut [], &mut long).number, 2);
    let most = &mut long[1..];
    assert_eq!(with_allocator(none, 1, 0, most, &mut []).number, 10);
    assert_eq!(with_allocator(none, 1, 0, &mut [], most).number, 6);
    assert_eq!(with_allocator(none, 1, 0, &mut [1], most).number, 10);
}

#[test]
fn every_call_by_number() {
    let at = |vars_count, opened| VarAllocator { vars_count, opened };
    // 42 before all that the arguments would bring about, and after 2.
    for (opened, index) in [
        (1, 1),
        (1, 7),
        (3, 3),
        (8, 8),
        (8, u32::MAX),
        (0, 0),
        (0, 9),
    ] {
        assert_eq!(numbers(at(1, opened), index, REL, 4), [42; 12]);
    }
    let later = [5, 3, 3, 40, 9, 9, 3, 3, 3, 11, 45, 45];
    for (opened, index) in [(1, 0), (3, 2), (8, 0), (8, 7)] {
        assert_eq!(numbers(at(1, opened), index, REL, 4), later);
    }
    // Nothing opened: the count isn't asked.
    for vars_count in [0, 5, M + 1, u32::MAX] {
        assert_eq!(numbers(at(vars_count, 0), 0, REL, 4), [42; 12]);
        assert_eq!(numbers(at(vars_count, 0), 0, REL, 0), [42; 12]);
    }
    for vars_count in [0, M + 1, u32::MAX] {
        assert_eq!(numbers(at(vars_count, 1), 0, REL, 4), [2; 12]);
    }
    // More wires than slots: where these are lent.
    let beyond = [2, 2, 2, 2, 2, 2, 3, 2, 3, 2, 2, 45];
    assert_eq!(numbers(at(5, 1), 0, REL, 4), beyond);
    for vars_count in [0, 1, u32::MAX] {
        for opened in [9, 10, u32::MAX] {
            assert_eq!(numbers(at(vars_count, opened), 0, REL, 4), [2; 12]);
            assert_eq!(numbers(at(vars_count, opened), 9, REL, 4), [2; 12]);
            for width in [0, 25, u32::MAX] {
                let rel = SharedRelation { width, ..REL };
                assert_eq!(numbers(at(vars_count, opened), 9, rel, 4), [1; 12]);
            }
        }
    }
}

#[test]
fn own_counts_before_42() {
    let none = VarAllocator::default();
    let queries = SharedRelation { queries: 3, ..REL };
    assert_eq!(
        numbers(none, 0, queries, 4),
        [42, 42, 42, 42, 2, 2, 42, 42, 42, 2, 2, 42]
    );
    for rel in [
        SharedRelation { words: 5, ..REL },
        SharedRelation {
            equations: 3,
            ..REL
        },
    ] {
        assert_eq!(
            numbers(none, 0, rel, 4),
            [42, 42, 42, 42, 42, 42, 2, 42, 42, 2, 42, 2]
        );
    }
    // Quota and what was obtained aren't asked before 5, and a stray count only where it changes.
    let rel = SharedRelation {
        stray: u32::MAX,
        quota: 0,
        obtained: u32::MAX,
        ..REL
    };
    let allocator = VarAllocator {
        vars_count: 1,
        opened: 1,
    };
    assert_eq!(
        numbers(allocator, 0, rel, 4),
        [5, 3, 3, 40, 9, 9, 3, 3, 3, 11, 45, 45]
    );
}

#[test]
fn lists_are_stores_before_42() {
    let long = vec![0; M as usize + 1];
    let (none, slots) = (VarAllocator::default(), &mut [0; 4]);
    let (queries, uses) = (&mut [0; 4], &mut [0; 4]);
    assert_eq!(set_vars_on(none, 0, REL, slots, &long, &[]).number, 2);
    assert_eq!(set_vars_on(none, 0, REL, slots, &[], &long).number, 2);
    for (input, output) in [(&long[..], &[][..]), (&[], &long)] {
        let answer = add_permutation_on(none, 0, REL, slots, queries, uses, input, output);
        assert_eq!(answer.number, 2);
    }
    let answer = allocate_permutation_on(none, 0, REL, slots, queries, uses, &long);
    assert_eq!(answer.number, 2);
}

#[test]
fn five_then_43_then_six() {
    let mut plant = Plant::opened(8, &[(1, 3), (2, u32::MAX)]);
    assert_eq!(plant.allocate(0, M), (5, 0));
    assert_eq!(plant.allocate(0, M - 1), (43, 0));
    assert_eq!(plant.allocate(1, M - 1), (6, 0));
    assert_eq!(plant.allocate(1, M), (5, 0));
    assert_eq!(plant.allocate(0, 4), (43, 0));
    assert_eq!(plant.allocate(0, 3), (0, 1));
    assert_eq!(plant.allocate(0, 1), (43, 0));
    assert_eq!(plant.allocate(0, 0), (0, 4));
    assert_eq!(plant.allocate(1, 5), (6, 0));
    assert_eq!(plant.allocate(1, 4), (0, 4));
    assert_eq!(plant.allocate(0, 1), (43, 0));
    assert_eq!(plant.allocate(1, 1), (6, 0));
    assert!(plant.adds_up());
    // Obtained above the quota: 0 wires are refused too. The sum is no word's.
    for (quota, obtained, count, number) in [
        (2, 3, 0, 43),
        (0, 1, 0, 43),
        (u32::MAX, u32::MAX, 0, 0),
        (u32::MAX, u32::MAX, 1, 43),
        (0, u32::MAX, 1, 43),
        (0, 0, 0, 0),
    ] {
        let rel = &mut plant.mixers[0].rel;
        (rel.quota, rel.obtained) = (quota, obtained);
        assert_eq!(plant.allocate(0, count).0, number);
    }
}

#[test]
fn a_mint_within_its_quota() {
    let mut plant = Plant::opened(8, &[(2, 4), (1, 9)]);
    assert_eq!(plant.mint(0, &[7, M - 1]), (0, 1));
    assert_eq!(plant.mixers[0].queries[..5], [7, M - 1, 1, 2, DIRT]);
    assert_eq!(plant.mint(1, &[2]), (0, 3));
    assert_eq!(plant.mint(0, &[7]), (9, 0));
    assert_eq!(plant.mint(0, &[7, M]), (3, 0));
    assert_eq!(plant.allocate(0, 1), (0, 4));
    // One wire of two is left.
    assert_eq!(plant.mint(0, &[7]), (9, 0));
    assert_eq!(plant.mint(0, &[M, 7]), (3, 0));
    assert_eq!(plant.mint(0, &[7, 7]), (43, 0));
    assert_eq!(plant.allocate(0, 1), (0, 5));
    assert_eq!(plant.mint(0, &[7, 7]), (43, 0));
    assert_eq!(plant.slots, [0, F, F, F, F, F, DIRT, DIRT]);
    assert!(plant.adds_up());
}

#[test]
fn a_refused_mint_takes_nothing() {
    let mut plant = Plant::opened(4, &[(2, 2)]);
    plant.mixers[0].queries.truncate(3);
    assert_eq!(plant.mint(0, &[0, 0]), (10, 0));
    plant.slots.truncate(2);
    assert_eq!(plant.mint(0, &[0, 0]), (6, 0));
    assert_eq!(plant.mixers[0].rel.obtained, 0);
    plant.slots.push(DIRT);
    plant.mixers[0].queries.push(DIRT);
    // The use store is still of four words.
    assert_eq!(plant.mint(0, &[0, 0]), (10, 0));
    plant.mixers[0].uses.truncate(3);
    assert_eq!(plant.mint(0, &[0, 0]), (0, 1));
    assert_eq!(plant.mixers[0].uses, [2, 1, 1]);
    assert_eq!(plant.mixers[0].rel.obtained, 2);
    assert!(plant.adds_up());
}

#[test]
fn a_set_is_everybodys() {
    let mut plant = Plant::opened(8, &[(1, 4), (3, 4)]);
    plant.allocate(0, 1);
    plant.allocate(1, 1);
    // What one has set is a repeat for the other, on whosesoever wire.
    assert_eq!(plant.set_answer(1, 1, 6), (0, true));
    assert_eq!(plant.set_answer(0, 1, 6), (0, false));
    assert_eq!(plant.set_answer(0, 1, 7), (8, false));
    assert_eq!(plant.set_answer(0, 2, 9), (0, true));
    assert_eq!(plant.set_answer(1, 2, 9), (0, false));
    assert_eq!(plant.set_answer(0, 3, 9), (7, false));
    for index in [0, 1] {
        let rel = plant.mixers[index as usize].rel;
        assert_eq!(
            value_on(plant.allocator, index, rel, &plant.slots, 1).value,
            Some(6)
        );
        assert!(is_allocated_on(plant.allocator, index, rel, 2).yes);
        assert!(!is_allocated_on(plant.allocator, index, rel, 3).yes);
        let (number, held) = plant.gate(index);
        assert_eq!(number, 0);
        assert_eq!(held.publics[..8], [0, 0, 1, 6, 2, 9, 0, 0]);
        assert_eq!((held.ins.vars_count, held.ins.publics), (3, 3));
        assert_eq!(held.ins.width, rel.width);
    }
}

#[test]
fn lines_and_pairs_that_stay() {
    let mut plant = Plant::opened(8, &[(1, 4), (1, 0)]);
    plant.allocate(0, 3);
    let rel = plant.mixers[1].rel;
    let text = b"         1          274\n         2          275\n         9            0\n";
    let tally = set_tickets_on(plant.allocator, 1, rel, &mut plant.slots, text);
    assert_eq!((tally.number, tally.accepted, tally.fresh), (7, 2, 2));
    let (vars, values) = ([2, 3, 3], [6, 1, 2, 2]);
    let tally = set_vars_on(plant.allocator, 1, rel, &mut plant.slots, &vars, &values);
    assert_eq!((tally.number, tally.accepted, tally.fresh), (8, 2, 1));
    assert_eq!(plant.slots[..5], [0, 5, 6, 1, DIRT]);
    let tally = set_vars_on(plant.allocator, 0, rel, &mut plant.slots, &vars, &values);
    assert_eq!((tally.number, tally.accepted, tally.fresh), (8, 2, 0));
    let tally = set_tickets_on(plant.allocator, 0, rel, &mut plant.slots, text);
    assert_eq!((tally.number, tally.accepted, tally.fresh), (7, 2, 0));
}

#[test]
fn nothing_is_fresh_at_42() {
    let mut plant = Plant::opened(8, &[(1, 4)]);
    plant.allocate(0, 3);
    let (allocator, rel, slots) = (plant.allocator, plant.mixers[0].rel, &mut plant.slots);
    let answer = set_var_on(allocator, 1, rel, slots, 1, 6);
    assert_eq!((answer.number, answer.fresh), (42, false));
    let tally = set_vars_on(allocator, 1, rel, slots, &[1, 2], &[6, 6]);
    assert_eq!((tally.number, tally.accepted, tally.fresh), (42, 0, 0));
    let text = b"         1          274\n";
    let tally = set_tickets_on(allocator, 1, rel, slots, text);
    assert_eq!((tally.number, tally.accepted, tally.fresh), (42, 0, 0));
    let tally = set_tickets_on(allocator, 0, rel, slots, text);
    assert_eq!((tally.number, tally.accepted, tally.fresh), (0, 1, 1));
}

#[test]
fn only_own_queries_bind() {
    let mut plant = Plant::opened(8, &[(1, 4), (2, 4)]);
    assert_eq!(plant.mint(0, &[0]), (0, 1));
    assert_eq!(plant.equation(0, &[(1, 1)], 0), 0);
    assert_eq!(plant.equation(1, &[(1, 1)], 0), 0);
    // Wire 1 stands in a query of 0 alone; a wire of 1's own doesn't exist yet for either.
    assert_eq!((plant.gate(0).0, plant.gate(1).0), (0, 15));
    assert_eq!(plant.equation(0, &[(2, 0)], 0), 0);
    assert_eq!(plant.gate(0).0, 14);
    assert_eq!(plant.mint(1, &[0, 1]), (0, 2));
    assert_eq!((plant.gate(0).0, plant.gate(1).0), (0, 0));
    assert!(plant.adds_up());
}

#[test]
fn a_reading_set_by_one_and_used_by_the_other() {
    // Relation 0 turns wire 1 into wire 3, which is to be wire 2; relation 1 has both of them.
    let mut plant = Plant::opened(8, &[(1, 2), (2, 2)]);
    assert_eq!(plant.allocate(1, 2), (0, 1));
    assert_eq!(plant.mint(0, &[1]), (0, 3));
    assert_eq!(plant.equation(0, &[(3, 1), (2, P - 1)], 0), 0);
    // Nothing binds wire 2 for relation 0 until it is set.
    assert_eq!(plant.gate(0).0, 15);
    assert_eq!(plant.set(1, 2, 640), 0);
    let (number, held) = plant.gate(0);
    assert_eq!(number, 0);
    assert_eq!(held.check(1, &[3, 640], PARAMS), 0);
    assert_eq!(held.check(1, &[2, 5], PARAMS), 35);
    // A gate is judged on the sets before it, and what was gated stays.
    assert_eq!(plant.set(1, 1, 2), 0);
    assert_eq!(held.check(1, &[3, 640], PARAMS), 0);
    assert_eq!(plant.gate(0).1.check(1, &[3, 640], PARAMS), 33);
}

#[test]
fn an_opening_clears_its_own_use_store() {
    let mut plant = Plant::opened(6, &[(1, 4), (1, 4)]);
    assert_eq!(plant.record(0, &[2], &[9]), 0);
    assert_eq!(plant.record(1, &[2], &[2]), 0);
    assert_eq!(plant.open(2, 3), (0, 2));
    assert_eq!(plant.mixers[0].uses, [0, 0, 1, 0, 0, 0]);
    assert_eq!(plant.mixers[1].uses, [0, 0, 2, 0, 0, 0]);
    assert_eq!(plant.mixers[2].uses, [0; 6]);
    let stray = |index: usize| plant.mixers[index].rel.stray;
    assert_eq!([stray(0), stray(1), stray(2)], [1, 0, 0]);
    // 1, 2, 42, 6, 10.
    let open = |vars_count, opened, slots: usize, uses: usize| {
        let allocator = VarAllocator { vars_count, opened };
        let (mut slots, mut uses) = (vec![DIRT; slots], vec![DIRT; uses]);
        let answer = with_allocator(allocator, 1, 7, &mut slots, &mut uses);
        let left = if answer.number == 0 { 0 } else { DIRT };
        assert!(uses.iter().all(|&count| count == left));
        answer.number
    };
    for opened in [0, 1, 7] {
        assert_eq!(open(1, opened, 3, 3), 0);
        assert_eq!(open(1, opened, 3, 2), 10);
        assert_eq!(open(1, opened, 3, 4), 10);
    }
    assert_eq!(open(1, 8, 3, 4), 42);
    assert_eq!(open(4, 1, 3, 4), 2);
    assert_eq!(open(1, 0, 0, 4), 6);
}

#[test]
fn withdrawals_by_number() {
    let mut plant = Plant::opened(6, &[(1, 4), (2, 4)]);
    assert_eq!(plant.mint(0, &[5]), (0, 1));
    assert_eq!(plant.mint(1, &[1, 9]), (0, 2));
    assert_eq!(plant.equation(1, &[(1, 1)], 0), 0);
    assert_eq!(plant.withdraw_query(0, 1), 45);
    assert_eq!(plant.withdraw_equation(0, 0), 45);
    let before = plant.clone();
    assert_eq!(plant.withdraw_query(1, 0), 0);
    assert_eq!(plant.withdraw_equation(1, 0), 0);
    // What it obtained stays its own, and the other relation has its counts still.
    let rel = plant.mixers[1].rel;
    assert_eq!((rel.queries, rel.equations, rel.words), (0, 0, 0));
    assert_eq!((rel.obtained, rel.stray, plant.count()), (2, 0, 4));
    assert_eq!(plant.mixers[1].uses, [0; 6]);
    assert_eq!(plant.mixers[1].queries[..5], [0, 0, 0, 0, DIRT]);
    assert_eq!(plant.mixers[0].uses, before.mixers[0].uses);
    assert_eq!(plant.mixers[0].uses, [0, 1, 0, 0, 0, 1]);
    assert_eq!(plant.slots, before.slots);
    assert!(plant.adds_up());

    // 42 comes before 45, 11 and 10, and after 2.
    let (rel, slots) = (before.mixers[1].rel, &before.slots);
    let mut queries = before.mixers[1].queries.clone();
    let mut uses = vec![DIRT; 5];
    for (index, query, number) in [(1, 0, 11), (1, 1, 45), (2, 0, 42), (2, 1, 42)] {
        let allocator = before.allocator;
        let answer =
            withdraw_query_on(allocator, index, rel, slots, &mut queries, &mut uses, query);
        assert_eq!(answer.number, number);
        assert_eq!((answer.allocator, answer.relation), (allocator, rel));
        let none = VarAllocator::default();
        let answer = withdraw_query_on(none, 0, rel, &[], &mut queries, &mut uses, query);
        assert_eq!(answer.number, 42);
        let answer = withdraw_query_on(none, 0, rel, &[], &mut [], &mut uses, query);
        assert_eq!(answer.number, 2);
    }
    assert_eq!(queries, before.mixers[1].queries);
}

#[test]
fn another_s_allocation_moves_the_range_of_13() {
    let mut plant = Plant::opened(6, &[(1, 4), (1, 4)]);
    assert_eq!(plant.record(0, &[2], &[0]), 0);
    assert_eq!(plant.gate(0).0, 13);
    let uses = plant.mixers[0].uses.clone();
    assert_eq!(plant.allocate(1, 1), (0, 1));
    assert_eq!(plant.gate(0).0, 13);
    assert_eq!(plant.allocate(1, 1), (0, 2));
    assert_eq!(plant.gate(0).0, 0);
    assert_eq!(plant.mixers[0].uses, uses);
    // A stray cell stays so, whatever is allocated.
    assert_eq!(plant.record(0, &[6], &[0]), 0);
    assert_eq!(plant.allocate(1, 2), (0, 3));
    assert_eq!(plant.allocate(0, 1), (0, 5));
    assert_eq!(plant.gate(0).0, 13);
    assert_eq!(plant.withdraw_query(0, 1), 0);
    assert_eq!(plant.gate(0).0, 0);
    // Only its own counts bind: a wire that the other uses is unknown here.
    assert_eq!(plant.equation(1, &[(2, 1)], 0), 0);
    assert_eq!(plant.gate(1).0, 15);
    assert_eq!(plant.record(1, &[2], &[2]), 0);
    assert_eq!(plant.gate(1).0, 0);
    assert_eq!(plant.withdraw_query(1, 0), 0);
    assert_eq!((plant.gate(1).0, plant.gate(0).0), (15, 0));
}
