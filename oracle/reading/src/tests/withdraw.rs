//! Use counts, withdrawals and the gate by counts (document 02, R-6): its orders, and its corners.

use super::*;

/// Width 1, wire 0 alone, so many slots, and these queries held with right counts.
fn held(slots: usize, queries: &[(u32, u32)]) -> Stores {
    let mut stores = Stores::sized(1, slots, 12, 12);
    for &(input, output) in queries {
        assert_eq!(stores.record(&[input], &[output]), 0);
    }
    stores
}

/// A query struck from a relation of these counts, over three slots: the number, the counts and
/// the stray count afterwards. A refusal must leave everything.
fn struck(query: (u32, u32), uses: &[u32], stray: u32) -> (u32, Vec<u32>, u32) {
    let mut stores = held(3, &[query]);
    stores.uses = uses.to_vec();
    stores.rel.stray = stray;
    let before = stores.clone();
    let number = stores.withdraw_query(0);
    if number == 0 {
        assert_eq!(stores.rel.queries, 0);
        assert_eq!(stores.queries[..3], [0, 0, DIRT]);
    } else {
        assert_eq!(stores.rel, before.rel);
        assert_eq!(stores.queries, before.queries);
        assert_eq!(stores.uses, before.uses);
    }
    assert_eq!(stores.slots, before.slots);
    (number, stores.uses, stores.rel.stray)
}

/// The same of a query that is recorded.
fn joined(query: (u32, u32), uses: &[u32], stray: u32) -> (u32, Vec<u32>, u32) {
    let mut stores = held(3, &[]);
    stores.uses = uses.to_vec();
    stores.rel.stray = stray;
    let before = stores.clone();
    let number = stores.record(&[query.0], &[query.1]);
    if number == 0 {
        assert_eq!(stores.queries[..3], [query.0, query.1, DIRT]);
    } else {
        assert_eq!(stores.rel, before.rel);
        assert_eq!(stores.queries, before.queries);
        assert_eq!(stores.uses, before.uses);
    }
    (number, stores.uses, stores.rel.stray)
}

/// The counts of the held cells, worked out afresh: how many of them name each slot's wire, and
/// how many name none.
fn afresh(stores: &Stores) -> (Vec<u32>, u32) {
    let cells = 2 * stores.rel.width as usize * stores.rel.queries as usize;
    let held = &stores.queries[..cells];
    let times = |var| held.iter().filter(|&&cell| cell == var).count() as u32;
    let slots = stores.slots.len() as u32;
    let stray = held.iter().filter(|&&cell| cell >= slots).count() as u32;
    let counts = ((0..slots).map(times).collect(), stray);
    assert_eq!(counted(stores.slots.len(), held), counts);
    counts
}

#[test]
fn the_use_store_is_as_long_as_the_slots() {
    // Fresh: 1, 2, 6, 10.
    for (width, slots, uses, number) in [
        (1, 3, 3, 0),
        (1, 3, 2, 10),
        (1, 3, 4, 10),
        (1, 3, 0, 10),
        (1, 0, 0, 6),
        (1, 0, 1, 6),
        (0, 0, 1, 1),
        (25, 3, 4, 1),
    ] {
        let (mut slots, mut uses) = (vec![DIRT; slots], vec![DIRT; uses]);
        let answer = new(width, &mut slots, &mut uses);
        assert_eq!(answer.number, number);
        let left = if number == 0 { 0 } else { DIRT };
        assert!(uses.iter().all(|&count| count == left));
        assert_eq!(slots.first() == Some(&0), number == 0);
        assert_eq!(answer.relation.stray, 0);
    }
    // 2 is asked of its size alone, before 6 and 10.
    let mut long = vec![0; M as usize + 1];
    assert_eq!(new(1, &mut [], &mut long).number, 2);
    assert_eq!(new(0, &mut [], &mut long).number, 1);
    assert_eq!(new(1, &mut [], &mut long[1..]).number, 6);
    assert_eq!(new(1, &mut [DIRT], &mut long[1..]).number, 10);
}

#[test]
fn a_fresh_relation_fills_its_use_store() {
    let mut stores = held(3, &[(1, 1), (9, 2)]);
    stores.rel.stray = 7;
    let answer = new(1, &mut stores.slots, &mut stores.uses);
    assert_eq!((answer.number, answer.relation.stray), (0, 0));
    assert_eq!(stores.uses, [0; 3]);
    // What the queries hold stays.
    assert_eq!(stores.queries[..5], [1, 1, 9, 2, DIRT]);
}

#[test]
fn cells_count_by_the_slot_stores_length() {
    let mut stores = held(4, &[]);
    assert_eq!(stores.rel.vars_count, 1);
    // Wires 1 to 3 aren't allocated, and have a slot; 4 has none.
    assert_eq!(stores.record(&[3], &[3]), 0);
    assert_eq!(
        (stores.uses.as_slice(), stores.rel.stray),
        (&[0, 0, 0, 2][..], 0)
    );
    assert_eq!(stores.record(&[4], &[0]), 0);
    assert_eq!(
        (stores.uses.as_slice(), stores.rel.stray),
        (&[1, 0, 0, 2][..], 1)
    );
    assert_eq!(stores.record(&[M - 1], &[4]), 0);
    assert_eq!(
        (stores.uses.as_slice(), stores.rel.stray),
        (&[1, 0, 0, 2][..], 3)
    );
    // A mint's outputs, and an input that names one of them.
    assert_eq!(stores.mint(&[1]), (0, 1));
    assert_eq!(
        (stores.uses.as_slice(), stores.rel.stray),
        (&[1, 2, 0, 2][..], 3)
    );
    assert_eq!(afresh(&stores), (stores.uses.clone(), stores.rel.stray));
    // A cell that becomes allocated goes on counting where it did.
    assert_eq!(stores.allocate(2), (0, 2));
    assert_eq!(
        (stores.uses.as_slice(), stores.rel.stray),
        (&[1, 2, 0, 2][..], 3)
    );
}

#[test]
fn a_withdrawn_query_leaves_the_others() {
    for index in 0..3 {
        let mut stores = held(6, &[(1, 2), (3, 9), (5, 5)]);
        let mut left = vec![(1, 2), (3, 9), (5, 5)];
        assert_eq!(stores.withdraw_query(index), 0);
        left.remove(index as usize);
        let words: Vec<u32> = left.iter().flat_map(|&(a, b)| [a, b]).collect();
        // Just the two freed words become 0, and those past the old end are as they were.
        assert_eq!(stores.queries[..4], words);
        assert_eq!(
            stores.queries[4..],
            [0, 0, DIRT, DIRT, DIRT, DIRT, DIRT, DIRT]
        );
        assert_eq!(stores.rel.queries, 2);
        assert_eq!(afresh(&stores), (stores.uses.clone(), stores.rel.stray));
        let sum: u32 = stores.uses.iter().sum();
        assert_eq!(sum + stores.rel.stray, 2 * stores.rel.queries);
        // It goes on as a relation of what remains.
        assert_eq!(stores.record(&[4], &[4]), 0);
        assert_eq!(stores.queries[4..7], [4, 4, DIRT]);
    }
    let mut stores = held(6, &[(1, 2)]);
    assert_eq!(stores.withdraw_query(1), 45);
    assert_eq!(stores.withdraw_query(0), 0);
    assert_eq!(stores.uses, [0; 6]);
    assert_eq!(stores.withdraw_query(0), 45);
}

#[test]
fn a_withdrawn_equation_leaves_the_others() {
    let list: [(&[(u32, u32)], u32); 3] = [(&[(1, 2)], 3), (&[], 4), (&[(5, 6), (7, 0)], 8)];
    let words: [&[u32]; 3] = [&[1, 1, 2, 3], &[0, 4], &[2, 5, 6, 7, 0, 8]];
    for index in 0..3 {
        let mut stores = Stores::sized(2, 4, 0, 16);
        for (terms, image) in list {
            assert_eq!(stores.equation(terms, image), 0);
        }
        let uses = stores.uses.clone();
        assert_eq!(stores.withdraw_equation(index), 0);
        let freed = words[index as usize].len();
        let mut left = words.to_vec();
        left.remove(index as usize);
        let mut expected = left.concat();
        expected.resize(12, 0);
        expected.resize(16, DIRT);
        assert_eq!(stores.equations, expected);
        assert_eq!(stores.rel.equations, 2);
        assert_eq!(stores.rel.words as usize, 12 - freed);
        assert_eq!((stores.uses.clone(), stores.rel.stray), (uses, 0));
        assert_eq!(stores.withdraw_equation(2), 45);
        assert_eq!(stores.withdraw_equation(1), 0);
        assert_eq!(stores.withdraw_equation(0), 0);
        assert_eq!(stores.withdraw_equation(0), 45);
        assert_eq!(stores.rel.words, 0);
        assert_eq!(stores.equations[..12], [0; 12]);
        assert_eq!(stores.equations[12..], [DIRT; 4]);
    }
}

#[test]
fn eleven_before_ten() {
    // The example: w = 1, 3 slots, held query (1, 1).
    assert_eq!(struck((1, 1), &[0, 2], 0).0, 10);
    assert_eq!(struck((1, 1), &[0, 1], 0).0, 11);
    assert_eq!(struck((1, 1), &[0, 1, 0], 0).0, 11);
    assert_eq!(struck((1, 1), &[0, 2, 0], 0), (0, vec![0, 0, 0], 0));
    // A cell that the use store has no word for asks nothing, and 10 comes.
    assert_eq!(struck((1, 1), &[0], 0).0, 10);
    assert_eq!(struck((1, 1), &[], 0).0, 10);
    assert_eq!(struck((2, 0), &[0, 0], 0).0, 11);
    assert_eq!(struck((2, 0), &[1, 0], 0).0, 10);
    // A use store that is longer has no more to say: a wire beyond the slots is stray.
    assert_eq!(struck((1, 1), &[0, 2, 0, 0], 0).0, 10);
    assert_eq!(struck((3, 1), &[0, 1, 0, 0], 0).0, 11);
    assert_eq!(struck((3, 1), &[0, 1, 0, 0], 1).0, 10);
    // The same of a record.
    assert_eq!(joined((1, 1), &[0, M - 2], 0).0, 10);
    assert_eq!(joined((1, 1), &[0, M - 1], 0).0, 11);
    assert_eq!(joined((1, 1), &[0], 0).0, 10);
    assert_eq!(joined((3, 1), &[0, 0, 0, M], 0).0, 10);
    assert_eq!(joined((3, 1), &[0, 0, 0, 0], M).0, 11);
}

#[test]
fn final_counts_are_judged() {
    let f = u32::MAX;
    // Twice on one wire: neither 0 nor 1 is enough, though one cell could leave 1.
    assert_eq!(struck((1, 1), &[5, 0, 5], 5).0, 11);
    assert_eq!(struck((1, 1), &[5, 1, 5], 5).0, 11);
    assert_eq!(struck((1, 1), &[5, 2, 5], 5), (0, vec![5, 0, 5], 5));
    assert_eq!(struck((0, 2), &[1, 5, 0], 5).0, 11);
    assert_eq!(struck((2, 0), &[0, 5, 1], 5).0, 11);
    assert_eq!(struck((0, 2), &[1, 5, 1], 5), (0, vec![0, 5, 0], 5));
    // Stray: both, one of two, and none there.
    assert_eq!(struck((3, M - 1), &[0; 3], 1).0, 11);
    assert_eq!(struck((3, M - 1), &[0; 3], 2), (0, vec![0; 3], 0));
    assert_eq!(struck((3, 0), &[1, 0, 0], 0).0, 11);
    assert_eq!(struck((3, 0), &[0, 0, 0], 1).0, 11);
    assert_eq!(struck((3, 0), &[1, 0, 0], 1), (0, vec![0; 3], 0));
    // Joining: 2^30 is reached and not exceeded.
    assert_eq!(joined((1, 1), &[0, M - 2, 0], 0), (0, vec![0, M, 0], 0));
    assert_eq!(joined((1, 1), &[0, M - 1, 0], 0).0, 11);
    assert_eq!(joined((1, 1), &[0, M, 0], 0).0, 11);
    assert_eq!(joined((0, 1), &[0, M - 1, 0], 0), (0, vec![1, M, 0], 0));
    assert_eq!(joined((0, 1), &[0, M, 0], 0).0, 11);
    assert_eq!(joined((0, 1), &[f, 0, 0], 0).0, 11);
    assert_eq!(joined((7, 7), &[0; 3], M - 2), (0, vec![0; 3], M));
    assert_eq!(joined((7, 7), &[0; 3], M - 1).0, 11);
    assert_eq!(joined((7, 0), &[0; 3], M - 1), (0, vec![1, 0, 0], M));
    assert_eq!(joined((7, 0), &[0; 3], f).0, 11);
}

#[test]
fn counts_above_2_to_30() {
    let f = u32::MAX;
    // Brought to 2^30 or less by the whole query, it is accepted; one that stays above is 11.
    assert_eq!(struck((1, 1), &[0, M + 2, 0], 0), (0, vec![0, M, 0], 0));
    assert_eq!(struck((1, 1), &[0, M + 1, 0], 0), (0, vec![0, M - 1, 0], 0));
    assert_eq!(struck((1, 1), &[0, M + 3, 0], 0).0, 11);
    assert_eq!(struck((1, 0), &[1, M + 1, 0], 0), (0, vec![0, M, 0], 0));
    assert_eq!(struck((1, 0), &[1, M + 2, 0], 0).0, 11);
    assert_eq!(struck((1, 1), &[0, f, 0], 0).0, 11);
    assert_eq!(struck((3, 3), &[0; 3], M + 2), (0, vec![0; 3], M));
    assert_eq!(struck((3, 3), &[0; 3], M + 3).0, 11);
    assert_eq!(struck((3, 3), &[0; 3], f).0, 11);
    // Where no cell changes it, nothing is asked of a count.
    assert_eq!(struck((1, 1), &[f, 2, DIRT], f), (0, vec![f, 0, DIRT], f));
    assert_eq!(joined((1, 1), &[f, 2, DIRT], f), (0, vec![f, 4, DIRT], f));
    assert_eq!(struck((4, 4), &[f, f, f], 2), (0, vec![f, f, f], 0));
    assert_eq!(joined((4, 4), &[f, f, f], 2), (0, vec![f, f, f], 4));
}

#[test]
fn a_wire_in_every_cell() {
    for width in [1, 2, 24] {
        let all = 2 * width as u32;
        let mut stores = Stores::sized(width as u32, 3, 3 * all as usize, 0);
        let ones = vec![1; width];
        assert_eq!(stores.record(&ones, &ones), 0);
        assert_eq!(stores.uses, [0, all, 0]);
        for (count, number) in [(M - all, 0), (M - all + 1, 11), (M, 11)] {
            let mut stores = stores.clone();
            stores.uses[1] = count;
            assert_eq!(stores.record(&ones, &ones), number);
            let left = if number == 0 { M } else { count };
            assert_eq!(stores.uses, [0, left, 0]);
        }
        for (count, number) in [
            (0, 11),
            (1, 11),
            (all - 1, 11),
            (all, 0),
            (M, 0),
            (M + all, 0),
            (M + all + 1, 11),
        ] {
            let mut stores = stores.clone();
            stores.uses[1] = count;
            assert_eq!(stores.withdraw_query(0), number, "{count} at width {width}");
            let left = if number == 0 { count - all } else { count };
            assert_eq!(stores.uses, [0, left, 0]);
        }
    }
}

#[test]
fn a_mints_outputs_count_too() {
    let mint = |uses: [u32; 4], stray: u32, input: [u32; 2]| {
        let mut stores = Stores::sized(2, 4, 4, 0);
        (stores.uses, stores.rel.stray) = (uses.to_vec(), stray);
        let before = stores.clone();
        let (number, first) = stores.mint(&input);
        if number != 0 {
            assert_eq!((first, stores.rel), (0, before.rel));
            assert_eq!(stores.slots, before.slots);
            assert_eq!(stores.queries, before.queries);
            assert_eq!(stores.uses, before.uses);
        }
        (number, stores.uses, stores.rel.stray)
    };
    assert_eq!(mint([0; 4], 0, [0, 3]), (0, vec![1, 1, 1, 1], 0));
    // Three of its four cells are on wire 1.
    assert_eq!(mint([0; 4], 0, [1, 1]), (0, vec![0, 3, 1, 0], 0));
    assert_eq!(mint([0, M - 3, 0, 0], 0, [1, 1]), (0, vec![0, M, 1, 0], 0));
    assert_eq!(mint([0, M - 2, 0, 0], 0, [1, 1]).0, 11);
    assert_eq!(mint([0, 0, M, 0], 0, [1, 1]).0, 11);
    assert_eq!(mint([0, 0, M - 1, M], 0, [9, 1]), (0, vec![0, 2, M, M], 1));
    assert_eq!(mint([0; 4], M, [9, 1]).0, 11);
    assert_eq!(mint([0; 4], M, [0, 1]), (0, vec![1, 2, 1, 0], M));
}

#[test]
fn ten_in_a_record_and_a_mint() {
    // 1, 2, 9, 3, 11, 10 and 1, 2, 9, 3, 5, 6, 11, 10.
    let mut stores = Stores::sized(1, 2, 2, 0);
    stores.uses = vec![0];
    assert_eq!(stores.record(&[0], &[]), 9);
    assert_eq!(stores.record(&[0], &[M]), 3);
    assert_eq!(stores.record(&[0], &[0]), 10);
    assert_eq!(stores.mint(&[0]), (10, 0));
    stores.uses = vec![M];
    assert_eq!(stores.record(&[0], &[M]), 3);
    assert_eq!(stores.record(&[0], &[0]), 11);
    assert_eq!(stores.record(&[1], &[1]), 10);
    assert_eq!(stores.mint(&[0]), (11, 0));
    stores.uses = vec![0; 2];
    assert_eq!(stores.record(&[0], &[0]), 0);
    // No room for a second: the counts are asked before.
    assert_eq!(stores.record(&[1], &[1]), 10);
    stores.uses[1] = M;
    assert_eq!(stores.record(&[1], &[1]), 11);
    assert_eq!(stores.mint(&[0]), (11, 0));
    assert_eq!(stores.allocate(1), (0, 1));
    assert_eq!(stores.mint(&[1]), (6, 0));
    // A record is lent the slots, and its 2 asks what they hold.
    stores.slots.truncate(1);
    assert_eq!(stores.record(&[1], &[]), 2);
    assert_eq!(stores.withdraw_query(9), 2);
    assert_eq!(stores.mint(&[]), (2, 0));
}

#[test]
fn forty_five_after_two() {
    let mut stores = held(3, &[(1, 1)]);
    assert_eq!(stores.equation(&[], 0), 0);
    let numbers = |change: fn(&mut Stores), index: u32| {
        let mut stores = stores.clone();
        change(&mut stores);
        let before = stores.clone();
        let query = stores.withdraw_query(index);
        assert!(query == 0 || stores.queries == before.queries && stores.rel == before.rel);
        let equation = stores.withdraw_equation(index);
        assert!(equation == 0 || stores.equations == before.equations);
        (query, equation)
    };
    for index in [1, 2, M, u32::MAX] {
        assert_eq!(numbers(|_| {}, index), (45, 45));
        assert_eq!(numbers(|stores| stores.rel.width = 25, index), (1, 1));
        assert_eq!(numbers(|stores| stores.rel.vars_count = 0, index), (2, 2));
        assert_eq!(
            numbers(|stores| stores.rel.vars_count = M + 1, index),
            (2, 2)
        );
        assert_eq!(numbers(|stores| stores.rel.vars_count = 4, index), (2, 45));
        assert_eq!(numbers(|stores| stores.rel.queries = 7, index), (2, 45));
        assert_eq!(numbers(|stores| stores.rel.words = 13, index), (45, 2));
        assert_eq!(numbers(|stores| stores.rel.equations = 7, index), (45, 2));
        // 45 before 11 and 10.
        assert_eq!(numbers(|stores| stores.uses[1] = 0, index), (45, 45));
        assert_eq!(numbers(|stores| stores.uses.clear(), index), (45, 45));
        assert_eq!(numbers(|stores| stores.rel.words = 1, index), (45, 45));
    }
    assert_eq!(numbers(|stores| stores.uses[1] = 0, 0), (11, 0));
    assert_eq!(numbers(|stores| stores.uses.clear(), 0), (10, 0));
    assert_eq!(numbers(|stores| stores.rel.words = 1, 0), (0, 11));
    assert_eq!(numbers(|_| {}, 0), (0, 0));

    // Stores above 2^30 words, which nobody touches.
    let long = &mut vec![0; M as usize + 1];
    let (few, rel) = (&mut [0; 3], stores.rel);
    assert_eq!(withdraw_query(rel, long, few, &mut [0; 3], 9).number, 2);
    assert_eq!(withdraw_query(rel, few, long, &mut [0; 3], 9).number, 2);
    assert_eq!(withdraw_query(rel, &[0; 3], few, long, 9).number, 2);
    assert_eq!(
        withdraw_query(rel, &[0; 3], few, &mut long[1..], 9).number,
        45
    );
    assert_eq!(
        withdraw_query(rel, &[0; 3], few, &mut long[1..], 0).number,
        11
    );
    assert_eq!(withdraw_equation(rel, long, 9).number, 2);
    assert_eq!(withdraw_equation(rel, &mut long[1..], 9).number, 45);
}

#[test]
fn equations_that_do_not_end_at_the_used_words() {
    // A term and an image, then one without terms: 6 words.
    let mut stores = Stores::sized(1, 3, 0, 8);
    assert_eq!(stores.equation(&[(0, 1)], 2), 0);
    assert_eq!(stores.equation(&[], 3), 0);
    assert_eq!(stores.equations[..6], [1, 0, 1, 2, 0, 3]);
    let number = |change: fn(&mut Stores), index: u32| {
        let mut stores = stores.clone();
        change(&mut stores);
        let before = stores.clone();
        let number = stores.withdraw_equation(index);
        if number != 0 {
            assert_eq!(
                (stores.rel, &stores.equations),
                (before.rel, &before.equations)
            );
        }
        number
    };
    for index in [0, 1] {
        assert_eq!(number(|stores| stores.rel.words = 5, index), 11);
        assert_eq!(number(|stores| stores.rel.words = 7, index), 11);
        assert_eq!(number(|stores| stores.rel.words = 8, index), 11);
        assert_eq!(number(|stores| stores.rel.equations = 3, index), 11);
        // Other term counts may end there too: none, and one.
        assert_eq!(number(|stores| stores.equations[0] = 0, index), 0);
        assert_eq!(number(|stores| stores.equations[0] = 2, index), 11);
        assert_eq!(number(|stores| stores.equations[4] = 1, index), 11);
        assert_eq!(number(|stores| stores.equations[0] = u32::MAX, index), 11);
        assert_eq!(number(|stores| stores.equations[4] = 1 << 31, index), 11);
        // Held wires and units aren't asked.
        assert_eq!(number(|stores| stores.equations[1] = M, index), 0);
        assert_eq!(number(|stores| stores.equations[2] = P, index), 0);
        assert_eq!(number(|stores| stores.equations[3] = u32::MAX, index), 0);
    }
    // Fewer equations than there are: the first would fit, and the used words go further.
    assert_eq!(number(|stores| stores.rel.equations = 1, 0), 11);
    assert_eq!(number(|stores| stores.rel.equations = 1, 1), 45);
    // The walk may end right with other counts: the words are then two without terms.
    let mut stores = stores;
    stores.equations[..6].copy_from_slice(&[0, 7, 0, 8, 0, 9]);
    stores.rel.equations = 3;
    assert_eq!(stores.withdraw_equation(1), 0);
    assert_eq!(stores.equations[..6], [0, 7, 0, 9, 0, 0]);
}

#[test]
fn cells_that_are_no_wires_are_stray() {
    for word in [3, M - 1, M, u32::MAX] {
        let mut stores = held(3, &[(1, 1), (2, 2)]);
        stores.queries[0] = word;
        stores.uses[1] = 1;
        assert_eq!(stores.withdraw_query(0), 11);
        stores.rel.stray = 1;
        assert_eq!(stores.withdraw_query(0), 0);
        assert_eq!(
            (stores.uses.as_slice(), stores.rel.stray),
            (&[0, 0, 2][..], 0)
        );
        assert_eq!(stores.queries[..4], [2, 2, 0, 0]);
    }
}

#[test]
fn a_wire_becomes_unknown_again() {
    let mut stores = held(4, &[]);
    assert_eq!(stores.allocate(2), (0, 1));
    assert_eq!(stores.record(&[1], &[2]), 0);
    assert_eq!(stores.record(&[0], &[2]), 0);
    assert_eq!(stores.equation(&[(1, 1)], 0), 0);
    assert_eq!(stores.equation(&[(2, 1)], 0), 0);
    assert_eq!(stores.gate().0, 0);
    // Wire 2 stands in the other query still; wire 1 in none.
    assert_eq!(stores.withdraw_query(0), 0);
    assert_eq!(stores.gate().0, 15);
    assert_eq!(stores.withdraw_equation(0), 0);
    assert_eq!(stores.gate().0, 0);
    assert_eq!(stores.withdraw_query(0), 0);
    assert_eq!(stores.gate().0, 15);
    // A set, a query recorded again, or the equation's withdrawal make up for it.
    for way in 0..3 {
        let mut stores = stores.clone();
        let number = match way {
            0 => stores.set(2, 0),
            1 => stores.record(&[2], &[0]),
            _ => stores.withdraw_equation(0),
        };
        assert_eq!((number, stores.gate().0), (0, 0));
    }
}

#[test]
fn a_wire_that_is_not_allocated_leaves_with_its_query() {
    let mut stores = held(4, &[(3, 0), (7, 0), (0, 0)]);
    assert_eq!(stores.gate().0, 13);
    assert_eq!(stores.withdraw_query(0), 0);
    // Wire 7 is stray.
    assert_eq!(stores.gate().0, 13);
    assert_eq!(stores.withdraw_query(0), 0);
    let (number, gated) = stores.gate();
    assert_eq!((number, gated.ins.queries), (0, 1));
    assert_eq!(stores.withdraw_query(0), 0);
    assert_eq!(stores.gate().0, 0);
}

#[test]
fn the_gate_believes_the_counts() {
    let mut stores = held(4, &[(1, 1)]);
    assert_eq!(stores.allocate(2), (0, 1));
    assert_eq!(stores.equation(&[(1, 1), (0, 1)], 0), 0);
    let gate = |uses: [u32; 4], stray: u32| {
        let mut stores = stores.clone();
        (stores.uses, stores.rel.stray) = (uses.to_vec(), stray);
        stores.gate().0
    };
    assert_eq!(gate([0, 2, 0, 0], 0), 0);
    // 15 by the count of wire 1, whatever its queries are; any count above 0 will do.
    assert_eq!(gate([0, 0, 0, 0], 0), 15);
    assert_eq!(gate([0, 0, 2, 0], 0), 15);
    for count in [1, M, M + 1, u32::MAX] {
        assert_eq!(gate([0, count, 0, 0], 0), 0);
        assert_eq!(gate([count, 1, count, 0], 0), 0);
        // 13 by a count from the wire count on, and by the stray count; before 15.
        assert_eq!(gate([0, 2, 0, count], 0), 13);
        assert_eq!(gate([0, 0, 0, count], 0), 13);
        assert_eq!(gate([0, 2, 0, 0], count), 13);
    }
    // By right counts a query wire that isn't allocated is 13; wrong ones let it pass.
    let mut stores = held(4, &[(3, 9)]);
    assert_eq!(stores.gate().0, 13);
    (stores.uses, stores.rel.stray) = (vec![0; 4], 0);
    assert_eq!(stores.gate().0, 0);
    // 11 asks the held wires all the same.
    stores.queries[1] = M;
    assert_eq!(stores.gate().0, 11);
}

#[test]
fn the_gates_ten_and_two() {
    let mut stores = held(4, &[(9, 9)]);
    let gate = |stores: &Stores, publics: usize, scratch: usize| {
        stores
            .gate_into(b"", vec![DIRT; publics], vec![DIRT; scratch])
            .0
    };
    for len in [0, 3, 5] {
        stores.uses = vec![0; len];
        // After 11, and before 16.
        assert_eq!(gate(&stores, 8, 0), 10);
        assert_eq!(stores.gate_into(b"\x80", vec![], vec![]).0, 11);
    }
    stores.uses = vec![0; 4];
    assert_eq!(gate(&stores, 1, 0), 10);
    assert_eq!(gate(&stores, 2, 0), 16);
    assert_eq!(gate(&stores, 2, 1), 13);
    stores.uses = vec![0; M as usize + 1];
    assert_eq!(stores.gate_into(b"\x80", vec![], vec![]).0, 2);
    stores.uses.truncate(M as usize);
    assert_eq!(stores.gate_into(b"\x80", vec![], vec![]).0, 11);
    assert_eq!(stores.gate_into(b"", vec![DIRT; 2], vec![]).0, 10);
}

#[test]
fn parts_keep_the_walk() {
    // The read knows no counts: a query wire beyond the count is 13 there, though the gate that
    // was lent wrong counts let it pass.
    let mut stores = held(4, &[(3, 0)]);
    stores.uses = vec![0; 4];
    let (number, gated) = stores.gate();
    assert_eq!(number, 0);
    assert_eq!(read(1, &gated.bytes(), AMPLE).0, 13);
}

#[test]
fn another_check_after_a_withdrawal() {
    // Instance A with a second query that no trace answers, withdrawn before the gate.
    let mut stores = Stores::new(1);
    stores.allocate(2);
    stores.set(2, 5);
    assert_eq!(stores.record(&[2], &[2]), 0);
    assert_eq!(stores.record(&[1], &[2]), 0);
    assert_eq!(stores.equation(&[(1, 1)], 5), 0);
    assert_eq!(stores.equation(&[(1, 3)], 6), 0);
    assert_eq!(stores.withdraw_query(0), 0);
    assert_eq!(stores.withdraw_equation(0), 0);
    let (number, held) = stores.gate();
    assert_eq!(number, 0);
    assert_eq!(held.bytes(), instance_a().bytes());
    assert_eq!(held.check(1, &[2, 5], PARAMS), 0);
    assert_eq!(held.check(0, &[], PARAMS), 31);
}

#[test]
fn lists_of_additions_and_withdrawals() {
    // Every short list of these calls leaves the counts of what remains, and a gate as a relation
    // made of what remains has it.
    let calls: [fn(&mut Stores) -> u32; 7] = [
        |stores| stores.record(&[1, 2], &[2, 9]),
        |stores| stores.record(&[0, 0], &[0, 3]),
        |stores| stores.mint(&[0, 4]).0,
        |stores| stores.equation(&[(2, 1)], 0),
        |stores| stores.withdraw_query(0),
        |stores| stores.withdraw_query(1),
        |stores| stores.withdraw_equation(0),
    ];
    let mut accepted = 0;
    for list in 0..7usize.pow(5) {
        let mut stores = Stores::sized(2, 8, 16, 16);
        stores.allocate(2);
        for place in 0..5 {
            let call = calls[list / 7usize.pow(place) % 7];
            let number = call(&mut stores);
            assert!([0, 6, 10, 45].contains(&number), "{number}");
            accepted += usize::from(number == 0);
            assert_eq!(afresh(&stores), (stores.uses.clone(), stores.rel.stray));
            let sum: u32 = stores.uses.iter().sum();
            assert_eq!(sum + stores.rel.stray, 4 * stores.rel.queries);
        }
        let mut again = Stores::sized(2, 8, 16, 16);
        again.allocate(stores.rel.vars_count - 1);
        for query in stores.queries[..4 * stores.rel.queries as usize].chunks(4) {
            assert_eq!(again.record(&query[..2], &query[2..]), 0);
        }
        for _ in 0..stores.rel.equations {
            assert_eq!(again.equation(&[(2, 1)], 0), 0);
        }
        let ((number, held), (expected, other)) = (stores.gate(), again.gate());
        assert_eq!((number, held.ins), (expected, other.ins));
        assert_eq!(held.publics, other.publics);
        assert_eq!(number == 0, number == 0 && held.bytes() == other.bytes());
    }
    assert!(accepted > 40_000);
}
