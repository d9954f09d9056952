//! The gate, value in held publics, heading.

use super::*;

#[test]
fn publics_in_index_order_then_zeros() {
    let mut stores = Stores::new(1);
    stores.allocate(4);
    stores.set(4, 1);
    stores.set(2, 0);
    let (number, held) = stores.gate_into("ü".as_bytes(), vec![DIRT; 8], vec![DIRT; 5]);
    assert_eq!(number, 0);
    assert_eq!(held.publics, [0, 0, 2, 0, 4, 1, 0, 0]);
    assert_eq!((held.ins.publics, held.ins.vars_count), (3, 5));
}

#[test]
fn numbers_in_order() {
    let mut stores = Stores::new(1);
    stores.allocate(1);
    assert_eq!(stores.record(&[2], &[0]), 0);
    // An unallocated query wire, too little scratch and no room for the publics.
    assert_eq!(stores.gate_into(b"", vec![DIRT; 1], vec![DIRT; 1]).0, 10);
    assert_eq!(stores.gate_into(b"", vec![DIRT; 2], vec![DIRT; 1]).0, 16);
    assert_eq!(stores.gate_into(b"", vec![DIRT; 2], vec![DIRT; 2]).0, 13);
    assert_eq!(stores.gate_into(&[0xC0, 0x80], vec![DIRT; 1], vec![]).0, 11);
    let damaged = |change: fn(&mut Stores)| {
        let mut stores = stores.clone();
        change(&mut stores);
        stores.gate_into(b"", vec![DIRT; 1], vec![]).0
    };
    assert_eq!(damaged(|stores| stores.rel.width = 0), 1);
    assert_eq!(damaged(|stores| stores.rel.vars_count = 33), 2);
    assert_eq!(damaged(|stores| stores.rel.vars_count = 0), 2);
    assert_eq!(damaged(|stores| stores.rel.queries = 17), 2);
    assert_eq!(damaged(|stores| stores.rel.words = 33), 2);
    // The equation count is judged by the store, how it goes with the words by 11.
    assert_eq!(damaged(|stores| stores.rel.equations = 1), 11);
    assert_eq!(damaged(|stores| stores.rel.words = 1), 11);
    assert_eq!(damaged(|stores| stores.rel.equations = 17), 2);
    assert_eq!(damaged(|stores| stores.slots[1] = P), 11);
    assert_eq!(damaged(|stores| stores.slots[2] = P), 10);
    assert_eq!(damaged(|stores| stores.queries[1] = M), 11);
    assert_eq!(damaged(|stores| stores.queries[2] = M), 10);
}

#[test]
fn held_equations() {
    let mut stores = Stores::sized(1, 4, 4, 8);
    assert_eq!(stores.equation(&[(0, 3)], 0), 0);
    assert_eq!(stores.equation(&[], 0), 0);
    assert_eq!(stores.gate().0, 0);
    for (place, word) in [
        (0, 2),
        (0, 0),
        (0, u32::MAX),
        (1, M),
        (2, P),
        (3, P),
        (5, P),
    ] {
        let mut stores = stores.clone();
        stores.equations[place] = word;
        assert_eq!(stores.gate().0, 11, "word {place} is {word}");
    }
}

#[test]
fn terms_one_by_one() {
    let gate = |terms: &[(u32, u32)]| {
        let mut stores = Stores::new(1);
        stores.allocate(3);
        stores.set(1, 4);
        stores.record(&[2], &[2]);
        assert_eq!(stores.equation(terms, 0), 0);
        stores.gate().0
    };
    assert_eq!(gate(&[(0, 1), (1, 1), (2, 1), (3, 0)]), 0);
    // Wire 3 is bound by no equation, not even by one before.
    assert_eq!(gate(&[(3, 0), (3, 1)]), 15);
    assert_eq!(gate(&[(3, 1), (4, 1)]), 15);
    assert_eq!(gate(&[(4, 0), (3, 1)]), 14);
}

#[test]
fn a_query_made_later_binds() {
    let mut stores = Stores::new(1);
    stores.equation(&[(1, 1)], 0);
    assert_eq!(stores.gate().0, 14);
    stores.mint(&[0]);
    assert_eq!(stores.gate().0, 0);
}

#[test]
fn value_in_held_publics() {
    let ins = Instance {
        width: 1,
        publics: 3,
        ..Instance::default()
    };
    let publics = [1, 3, 0, 4, 1, 5, 2, 6];
    let of = |var| {
        let answer = public_value(ins, &publics, var);
        (answer.number, answer.value)
    };
    assert_eq!(of(1), (0, Some(5)));
    assert_eq!(of(0), (0, Some(4)));
    assert_eq!(of(2), (0, None));
    assert_eq!(of(M), (3, None));
    assert_eq!(public_value(ins, &publics[..5], M).number, 2);
    assert_eq!(public_value(Instance::default(), &publics, M).number, 1);
}

#[test]
fn headings() {
    let (label, name, none) = (b"label", b"name", b"");
    assert!(std::ptr::eq(heading(label, name), label.as_slice()));
    assert!(std::ptr::eq(heading(none, name), name.as_slice()));
    assert!(std::ptr::eq(heading(label, none), label.as_slice()));
    assert!(heading(none, none).is_empty());
}
