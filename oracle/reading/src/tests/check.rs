//! The sheet, the builder's two calls, and the check.

use super::*;

/// w = 2, kinds 1 and 0.
const TWO: Params<'static> = Params {
    rounds: 2,
    words: &[1, 1, 2, 0, 0, 3, 1, 2, 3, 4],
};

#[test]
fn rounds_by_hand() {
    // Kind 1: (1 + 1, 1 + 2) to (128, 3), then (128 + 6, 384 + 12); kind 0 raises both.
    let (a, b) = (134u64, 399u64);
    let pow7 = |x: u64| (0..7).fold(1, |y, _| y * x % u64::from(P));
    let (a, b) = (pow7(a), pow7(b));
    let expected = [a + 2 * b, 3 * a + 4 * b].map(|x| (x % u64::from(P)) as u32);
    let mut out = [0; 2];
    assert_eq!(permute(2, TWO, &[1, 1], &mut out), 0);
    assert_eq!(out, expected);
    // No rounds: the input, whatever the matrix is.
    let none = Params {
        rounds: 0,
        words: &[0; 4],
    };
    assert_eq!(permute(2, none, &[7, 8], &mut out), 0);
    assert_eq!(out, [7, 8]);
}

#[test]
fn params_that_are_refused() {
    let number = |rounds, words: &[u32]| {
        let params = Params { rounds, words };
        let mut out = [DIRT];
        let number = permute(1, params, &[0], &mut out);
        assert!(number == 0 || out == [DIRT]);
        number
    };
    assert_eq!(number(1, &[1, 0, 0]), 0);
    assert_eq!(number(1, &[2, 0, 0]), 17);
    assert_eq!(number(1, &[0, P, 0]), 17);
    assert_eq!(number(1, &[0, 0, P]), 17);
    assert_eq!(number(1, &[0, 0]), 17);
    assert_eq!(number(1, &[0, 0, 0, 0]), 17);
    assert_eq!(number(0, &[P]), 17);
    assert_eq!(number(128, &[0; 257]), 0);
    assert_eq!(number(129, &[0; 259]), 17);
    assert_eq!(number(u32::MAX, &[0]), 17);
}

#[test]
fn builder() {
    let mut rec = Trace { width: 1, steps: 0 };
    let mut trace = [DIRT; 7];
    for input in [2, 3] {
        let answer = evaluate_step(rec, &mut trace, &[input], PARAMS);
        assert_eq!(answer.number, 0);
        rec = answer.trace;
    }
    rec = append_step(rec, &mut trace, &[8], &[9]).trace;
    assert_eq!(rec.steps, 3);
    assert_eq!(trace, [2, 5, 3, 640, 8, 9, DIRT]);
    let bad = Params {
        rounds: 129,
        words: &[],
    };
    assert_eq!(evaluate_step(rec, &mut trace, &[P, 0], bad).number, 9);
    assert_eq!(evaluate_step(rec, &mut trace, &[P], bad).number, 4);
    assert_eq!(evaluate_step(rec, &mut trace, &[0], bad).number, 17);
    assert_eq!(evaluate_step(rec, &mut trace, &[0], PARAMS).number, 10);
    assert_eq!(append_step(rec, &mut trace, &[0], &[P, 0]).number, 9);
    assert_eq!(append_step(rec, &mut trace, &[0], &[P]).number, 4);
    assert_eq!(append_step(rec, &mut trace, &[0], &[0]).number, 10);
    rec.steps = 4;
    assert_eq!(append_step(rec, &mut trace, &[], &[]).number, 2);
    rec.width = 0;
    assert_eq!(append_step(rec, &mut trace, &[], &[]).number, 1);
    assert_eq!(trace, [2, 5, 3, 640, 8, 9, DIRT]);
}

/// No rounds, so that a step is an evaluation where its halves are equal.
const SAME: Params<'static> = Params {
    rounds: 0,
    words: &[0],
};

/// An instance of width 1 from its words.
fn held(vars_count: u32, publics: &[u32], queries: &[u32], equations: &[u32]) -> Held {
    let mut count = 0;
    let mut place = 0;
    while place < equations.len() {
        place += 2 + 2 * equations[place] as usize;
        count += 1;
    }
    Held {
        ins: Instance {
            width: 1,
            vars_count,
            queries: queries.len() as u32 / 2,
            equations: count,
            words: equations.len() as u32,
            publics: publics.len() as u32 / 2,
        },
        label: Vec::new(),
        publics: publics.to_vec(),
        queries: queries.to_vec(),
        equations: equations.to_vec(),
    }
}

#[test]
fn beyond_the_count() {
    // A public wire before any step, a cell after its step, a term has no value.
    let of = |held: Held, trace: &[u32]| held.check(trace.len() as u32 / 2, trace, SAME);
    assert_eq!(of(held(1, &[1, 0], &[], &[]), &[]), 36);
    assert_eq!(of(held(1, &[1, 0], &[0, 0], &[]), &[]), 31);
    assert_eq!(of(held(1, &[1, 0], &[0, 0], &[]), &[0, 1]), 36);
    assert_eq!(of(held(1, &[], &[1, 0], &[]), &[0, 1]), 32);
    assert_eq!(of(held(1, &[], &[1, 0], &[]), &[0, 0]), 36);
    assert_eq!(of(held(1, &[0, 5], &[0, 1], &[]), &[6, 6]), 33);
    assert_eq!(of(held(1, &[0, 5], &[0, 1], &[]), &[5, 5]), 36);
    assert_eq!(of(held(1, &[], &[], &[1, 1, 0, 0]), &[]), 34);
    assert_eq!(of(held(0, &[], &[], &[0, 0]), &[]), 0);
}

#[test]
fn every_cell_is_compared() {
    let twice = held(3, &[], &[1, 1, 1, 2], &[]);
    assert_eq!(twice.check(2, &[0, 0, 0, 0], SAME), 0);
    // 0 is a value like any other: it is remembered.
    assert_eq!(twice.check(2, &[0, 0, 1, 1], SAME), 33);
    // Wire 1 on both sides of one query, under a sheet that gives 640 for 3.
    assert_eq!(held(3, &[], &[1, 1], &[]).check(1, &[3, 640], PARAMS), 33);
}

#[test]
fn later_public_counts() {
    let twice = held(2, &[1, 3, 1, 4], &[1, 0], &[1, 1, 2, 8]);
    assert_eq!(twice.check(1, &[4, 4], SAME), 0);
    assert_eq!(twice.check(1, &[3, 3], SAME), 33);
}

#[test]
fn equations_term_by_term() {
    let of = |equations: &[u32]| held(3, &[1, 3], &[], equations).check(0, &[], SAME);
    assert_eq!(of(&[2, 1, 2, 1, P - 1, 3]), 0);
    assert_eq!(of(&[2, 1, 2, 1, P - 1, 4]), 35);
    assert_eq!(of(&[2, 1, 2, 2, 0, 7]), 34);
    assert_eq!(of(&[0, 1, 1, 2, 0, 0]), 35);
    assert_eq!(of(&[1, 2, 0, 0, 0, 1]), 34);
}

#[test]
fn numbers_before_the_comparison() {
    let a = instance_a();
    let bad = Params {
        rounds: 1,
        words: &[],
    };
    // A trace that is too long for its store, a bad sheet, a unit that is none, no steps.
    assert_eq!(a.check(2, &[P, P], bad), 2);
    assert_eq!(a.check(1, &[P, P], bad), 17);
    assert_eq!(a.check(1, &[P, P], PARAMS), 11);
    let mut held = a.clone();
    held.ins.vars_count = 65;
    assert_eq!(held.check(0, &[], PARAMS), 16);
    held.label = vec![0xC0, 0x80];
    assert_eq!(held.check(0, &[], PARAMS), 11);
    held.ins.width = 0;
    assert_eq!(held.check(0, &[], PARAMS), 1);
    let mut held = a;
    held.publics[1] = P;
    assert_eq!(held.check(0, &[], PARAMS), 11);
}
