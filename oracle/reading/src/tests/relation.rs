//! Fresh, allocate, set, set list, record, mint, equation, scale, value, is it allocated.

use super::*;

#[test]
fn fresh() {
    for (width, len, number) in [(0, 4, 1), (25, 4, 1), (1, 0, 6), (24, 1, 0), (0, 0, 1)] {
        let (mut slots, mut uses) = (vec![DIRT; len], vec![DIRT; len]);
        let answer = new(width, &mut slots, &mut uses);
        assert_eq!(answer.number, number);
        if number == 0 {
            assert_eq!(slots[0], 0);
            assert!(all_zero(&uses));
            assert_eq!(
                (answer.relation.width, answer.relation.vars_count),
                (width, 1)
            );
            slots.remove(0);
        } else {
            assert_eq!(answer.relation, Relation::default());
            assert!(uses.iter().all(|&count| count == DIRT));
        }
        assert!(slots.iter().all(|&slot| slot == DIRT));
    }
}

#[test]
fn allocate() {
    let mut stores = Stores::sized(1, 8, 0, 0);
    assert_eq!(stores.allocate(0), (0, 1));
    assert_eq!(stores.allocate(3), (0, 1));
    assert_eq!(stores.slots, [0, F, F, F, DIRT, DIRT, DIRT, DIRT]);
    assert_eq!(stores.allocate(5), (6, 0));
    assert_eq!(stores.allocate(4), (0, 4));
    assert_eq!(stores.allocate(0), (0, 8));
    assert_eq!(stores.allocate(u32::MAX), (5, 0));
    for vars_count in [0, 9, M + 1, u32::MAX] {
        stores.rel.vars_count = vars_count;
        assert_eq!(stores.allocate(0), (2, 0));
        assert_eq!(stores.rel.vars_count, vars_count);
    }
}

#[test]
fn stores_of_more_than_2_to_30_words() {
    // Zeroed pages that nobody touches take no memory.
    let mut slots = vec![0; M as usize + 1];
    assert_eq!(new(1, &mut slots, &mut []).number, 2);
    assert_eq!(new(1, &mut slots[1..], &mut []).number, 10);
    let rel = Relation {
        width: 1,
        vars_count: M,
        ..Relation::default()
    };
    assert_eq!(allocate_vars(rel, &mut slots, 0).number, 2);
    let answer = allocate_vars(rel, &mut slots[1..], 0);
    assert_eq!((answer.number, answer.first), (0, M));
    assert_eq!(allocate_vars(rel, &mut slots[1..], 1).number, 5);
    assert_eq!(set_var(rel, &mut slots[1..], M - 1, 0).number, 0);
    assert_eq!(set_var(rel, &mut slots[1..], M, 0).number, 3);
    assert_eq!(value(rel, &slots[1..], M - 1).value, Some(0));
}

#[test]
fn set() {
    let mut stores = Stores::new(1);
    stores.allocate(2);
    let cases = [
        (0, 0, 0),
        (0, 5, 8),
        (3, 0, 7),
        (M - 1, 0, 7),
        (M, 0, 3),
        (1, P, 4),
        (M, P, 3),
        (3, P, 4),
        (1, P - 1, 0),
        (1, P - 1, 0),
        (1, 0, 8),
    ];
    for (var, value, number) in cases {
        assert_eq!(stores.set(var, value), number, "set {var} to {value}");
    }
    // A slot that is neither a unit nor F is taken by no value.
    stores.slots[2] = DIRT;
    assert_eq!(stores.set(2, 1), 8);
    stores.rel.width = 25;
    assert_eq!(stores.set(M, P), 1);
}

#[test]
fn set_list() {
    let mut stores = Stores::new(1);
    stores.allocate(5);
    assert_eq!(stores.set_list(&[], &[]), (0, 0, 0));
    assert_eq!(stores.set_list(&[1], &[]), (9, 0, 0));
    assert_eq!(stores.set_list(&[], &[P]), (9, 0, 0));
    // The refused pair comes before the lengths, and the pairs before it stay set.
    assert_eq!(stores.set_list(&[1, 2, 9], &[7, 8, 9, 9]), (7, 2, 2));
    assert_eq!(stores.slots[..4], [0, 7, 8, F]);
    // A repeat meets the value that the list itself has set.
    assert_eq!(stores.set_list(&[3, 3, 3], &[4, 4, 5]), (8, 2, 1));
    // Unequal lengths leave every common pair set.
    assert_eq!(stores.set_list(&[4, 5, 0], &[1, 2]), (9, 2, 2));
    assert_eq!(stores.slots[..7], [0, 7, 8, 4, 1, 2, DIRT]);
    assert_eq!(stores.set_list(&[4, M], &[P, 0]), (4, 0, 0));
    stores.rel.width = 0;
    assert_eq!(stores.set_list(&[4], &[1]), (1, 0, 0));
}

#[test]
fn a_set_is_fresh_or_repeated() {
    let mut stores = Stores::new(1);
    stores.allocate(3);
    let cases = [
        // Wire 0 has its value from the start.
        (0, 0, (0, false)),
        (0, 5, (8, false)),
        (1, 7, (0, true)),
        (1, 7, (0, false)),
        (1, 6, (8, false)),
        (1, 7, (0, false)),
        // By the wire, not by the value: 7 and 0 are known, and 0 isn't F.
        (2, 7, (0, true)),
        (3, 0, (0, true)),
        (3, 0, (0, false)),
        (4, 0, (7, false)),
        (2, P, (4, false)),
        (M, 0, (3, false)),
    ];
    for (var, value, answer) in cases {
        assert_eq!(stores.set_answer(var, value), answer, "{var} to {value}");
    }
    // Wires allocated later have no value, and a slot behind the count, F as it is, is nobody's.
    stores.allocate(1);
    stores.slots[5] = F;
    assert_eq!(stores.set_answer(5, 1), (7, false));
    for (width, vars_count, number) in [(0, 5, 1), (1, 0, 2), (1, 33, 2)] {
        let rel = stores.rel;
        (stores.rel.width, stores.rel.vars_count) = (width, vars_count);
        assert_eq!(stores.set_answer(4, 1), (number, false));
        stores.rel = rel;
    }
    assert_eq!(stores.set_answer(4, 1), (0, true));
}

#[test]
fn fresh_pairs_of_a_set_list() {
    let five = || {
        let mut stores = Stores::new(1);
        stores.allocate(5);
        assert_eq!(stores.set(1, 7), 0);
        stores
    };
    let cases: [(&[u32], &[u32], (u32, u32, u32)); 14] = [
        (&[2, 3], &[7, 7], (0, 2, 2)),
        (&[1], &[7], (0, 1, 0)),
        (&[0], &[0], (0, 1, 0)),
        (&[0, 1, 2], &[0, 7, 0], (0, 3, 1)),
        // The first occurrence alone is fresh, wherever the second stands.
        (&[2, 2], &[9, 9], (0, 2, 1)),
        (&[2, 3, 2, 3, 2], &[9, 8, 9, 8, 9], (0, 5, 2)),
        // A refused pair ends the count, whatever follows.
        (&[2, 1, 3], &[9, 8, 9], (8, 1, 1)),
        (&[2, 2, 3], &[9, 8, 9], (8, 1, 1)),
        (&[6, 2], &[9, 9], (7, 0, 0)),
        (&[2, 1, M, 3], &[9, 7, 0, 1], (3, 2, 1)),
        (&[2, 3, 3, 4], &[9, 9, P, 0], (4, 2, 2)),
        // 9 comes after every common pair.
        (&[2, 1, 3], &[9, 7], (9, 2, 1)),
        (&[2], &[9, 9], (9, 1, 1)),
        (&[2], &[], (9, 0, 0)),
    ];
    for (vars, values, answer) in cases {
        let case = format!("{vars:?} to {values:?}");
        assert_eq!(five().set_list(vars, values), answer, "{case}");
        // Again: every accepted pair is a repeat.
        let mut stores = five();
        stores.set_list(vars, values);
        let (number, accepted, _) = answer;
        assert_eq!(
            stores.set_list(vars, values),
            (number, accepted, 0),
            "{case}"
        );
    }
    for (width, vars_count, number) in [(25, 6, 1), (1, 0, 2), (1, 33, 2)] {
        let mut stores = five();
        (stores.rel.width, stores.rel.vars_count) = (width, vars_count);
        assert_eq!(stores.set_list(&[2, 3], &[9, 9]), (number, 0, 0));
    }
    let long = vec![0; M as usize + 1];
    assert_eq!(five().set_list(&long, &[]), (2, 0, 0));
}

#[test]
fn record() {
    let mut stores = Stores::sized(2, 1, 9, 0);
    // Wires that aren't allocated are taken.
    assert_eq!(stores.record(&[5, M - 1], &[0, 0]), 0);
    assert_eq!(
        stores.queries,
        [5, M - 1, 0, 0, DIRT, DIRT, DIRT, DIRT, DIRT]
    );
    assert_eq!(stores.record(&[M], &[0, 0]), 9);
    assert_eq!(stores.record(&[0, 0], &[M, 0, 0]), 9);
    assert_eq!(stores.record(&[0, 0], &[0, M]), 3);
    assert_eq!(stores.record(&[0, 0], &[0, 1]), 0);
    assert_eq!(stores.record(&[M, 0], &[0, 1]), 3);
    assert_eq!(stores.record(&[0, 0], &[0, 1]), 10);
    assert_eq!((stores.rel.queries, stores.queries[8]), (2, DIRT));
    stores.rel.queries = 3;
    assert_eq!(stores.record(&[0], &[0, 1]), 2);
    stores.rel.queries = u32::MAX;
    assert_eq!(stores.record(&[0], &[0, 1]), 2);
    stores.rel.queries = 2;
    stores.rel.vars_count = 0;
    assert_eq!(stores.record(&[0], &[0, 1]), 2);
}

#[test]
fn mint() {
    let mut stores = Stores::sized(2, 6, 8, 0);
    // Its own outputs may be its inputs.
    assert_eq!(stores.mint(&[1, 2]), (0, 1));
    assert_eq!(stores.queries[..5], [1, 2, 1, 2, DIRT]);
    assert_eq!(stores.mint(&[1]), (9, 0));
    assert_eq!(stores.mint(&[1, M]), (3, 0));
    assert_eq!(stores.mint(&[9, 9]), (0, 3));
    assert_eq!(stores.slots, [0, F, F, F, F, DIRT]);
    // The slots come before the queries, and neither half is done.
    let before = stores.clone();
    assert_eq!(stores.mint(&[0, 0]), (6, 0));
    stores.slots.push(DIRT);
    assert_eq!(stores.mint(&[0, 0]), (10, 0));
    stores.uses.push(0);
    assert_eq!(stores.mint(&[0, 0]), (10, 0));
    assert_eq!(stores.slots[..6], before.slots);
    assert_eq!(stores.queries, before.queries);
    assert_eq!(stores.rel, before.rel);
}

#[test]
fn equation() {
    let mut stores = Stores::sized(1, 1, 0, 8);
    assert_eq!(stores.equation(&[(0, P), (M, 0)], 0), 3);
    assert_eq!(stores.equation(&[(0, P)], 0), 4);
    assert_eq!(stores.equation(&[(0, 0)], P), 4);
    assert_eq!(stores.equation(&[(9, 1), (9, 0)], 3), 0);
    assert_eq!(stores.equations, [2, 9, 1, 9, 0, 3, DIRT, DIRT]);
    assert_eq!(stores.equation(&[(9, 1)], 3), 10);
    assert_eq!((stores.rel.equations, stores.rel.words), (1, 6));
    assert_eq!(stores.equation(&[], 4), 0);
    assert_eq!(stores.equation(&[], 4), 10);
    assert_eq!(stores.equations, [2, 9, 1, 9, 0, 3, 0, 4]);
    assert_eq!((stores.rel.equations, stores.rel.words), (2, 8));
    for (equations, words) in [(0, 9), (5, 8), (5, 0), (u32::MAX, 0)] {
        stores.rel.equations = equations;
        stores.rel.words = words;
        assert_eq!(stores.equation(&[(M, P)], P), 2);
    }
}

#[test]
fn scaling() {
    let mut terms = weighted(&[(1, 2), (M - 1, P - 1)]);
    assert_eq!(scale(&mut terms, P - 1), 0);
    assert_eq!(terms, weighted(&[(1, P - 2), (M - 1, 1)]));
    assert_eq!(scale(&mut terms, P), 4);
    assert_eq!(scale(&mut terms, 0), 0);
    assert_eq!(terms, weighted(&[(1, 0), (M - 1, 0)]));
    for (list, number) in [([(1, P), (M, 0)], 3), ([(1, 0), (1, P)], 4)] {
        let mut terms = weighted(&list);
        assert_eq!(scale(&mut terms, 2), number);
        assert_eq!(terms, weighted(&list));
    }
    assert_eq!(scale(&mut [], 1), 0);
    assert_eq!(scale(&mut [], P), 4);
}

#[test]
fn value_and_is_allocated() {
    let mut stores = Stores::new(1);
    stores.allocate(2);
    stores.set(1, 9);
    let of = |stores: &Stores, var| {
        let answer = value(stores.rel, &stores.slots, var);
        let flag = is_allocated(stores.rel, var);
        assert_eq!(answer.number, flag.number);
        (answer.number, answer.value, flag.yes)
    };
    assert_eq!(of(&stores, 0), (0, Some(0), true));
    assert_eq!(of(&stores, 1), (0, Some(9), true));
    assert_eq!(of(&stores, 2), (0, None, true));
    assert_eq!(of(&stores, 3), (0, None, false));
    assert_eq!(of(&stores, M), (3, None, false));
    stores.slots[2] = DIRT;
    assert_eq!(of(&stores, 2), (0, Some(DIRT), true));
    stores.rel.vars_count = 0;
    assert_eq!(of(&stores, M), (2, None, false));
    stores.rel.width = 0;
    assert_eq!(of(&stores, M), (1, None, false));
}
