//! The strict SFRI read (document 02, R-7): 46 directly after 27.

use super::*;

/// Wires and publics of files that break the rule, and that every question of the plain read lets
/// pass: wire 0 missing, among publics or without any, unequal to 0, and no wires.
const BROKEN: [&[u32]; 6] = [
    &[3, 0],
    &[3, 1, 1, 0],
    &[3, 2, 1, 0, 2, 0],
    &[3, 1, 0, 1],
    &[3, 2, 0, P - 1, 2, 0],
    &[0, 0],
];
/// Those of files that keep it.
const KEPT: [&[u32]; 3] = [&[1, 1, 0, 0], &[3, 1, 0, 0], &[3, 2, 0, 0, 2, 5]];

/// No queries and no equations.
const NEITHER: &[u32] = &[0, 0];

/// Both reads of a file of width 1: plain and strict.
fn both(parts: &[&[u32]], lens: [usize; 4]) -> [(u32, Held); 2] {
    let bytes = file(1, &parts.concat());
    READS.map(|read| read_dirty(read, 1, &bytes, lens))
}

fn numbers(parts: &[&[u32]], lens: [usize; 4]) -> [u32; 2] {
    both(parts, lens).map(|(number, _)| number)
}

#[test]
fn each_way_to_break_the_rule() {
    for publics in BROKEN {
        assert_eq!(numbers(&[publics, NEITHER], AMPLE), [0, 46], "{publics:?}");
    }
    // Wire 0 with value 0, and no wires: 12 comes later.
    assert_eq!(numbers(&[&[0, 1, 0, 0], NEITHER], AMPLE), [12, 46]);
    assert_eq!(numbers(&[&[0, 2, 0, 0, 1, 0], NEITHER], AMPLE), [12, 46]);
}

#[test]
fn the_rule_kept_is_the_plain_read() {
    for publics in KEPT {
        let [plain, strict] = both(&[publics, &[1, 0, 0], &[1, 1, 0, 3, 6]], AMPLE);
        assert_eq!((plain.0, &strict), (0, &plain), "{publics:?}");
    }
    let mut a = instance_a();
    a.label = "µ".as_bytes().to_vec();
    let plain = read(1, &a.bytes(), AMPLE);
    let strict = read_dirty(strict_instance_from_bytes, 1, &a.bytes(), AMPLE);
    assert_eq!((plain.0, strict), (0, plain));
}

#[test]
fn what_comes_before() {
    for publics in BROKEN {
        // A field that is cut off, a word that is no wire or no unit, and too little room.
        assert_eq!(numbers(&[publics, &[0]], AMPLE), [20; 2]);
        assert_eq!(numbers(&[publics, &[1, 0, M, 0]], AMPLE), [3; 2]);
        assert_eq!(numbers(&[publics, &[0, 1, 0, P]], AMPLE), [4; 2]);
        assert_eq!(numbers(&[publics, &[0, 1, 0, 7]], [4, 0, 1, 3]), [10; 2]);
    }
    // Publics that don't increase: wire 0 missing, after another, with another value, again with 0,
    // and no wires.
    let publics: [&[u32]; 5] = [
        &[3, 2, 1, 0, 1, 0],
        &[3, 2, 1, 0, 0, 0],
        &[3, 3, 0, 1, 2, 0, 1, 0],
        &[3, 2, 0, 0, 0, 0],
        &[0, 2, 0, 0, 0, 0],
    ];
    for publics in publics {
        assert_eq!(numbers(&[publics, NEITHER], AMPLE), [27; 2], "{publics:?}");
    }
    // The width, and what a file begins with.
    let read = |width, bytes: &[u8]| read_dirty(strict_instance_from_bytes, width, bytes, AMPLE).0;
    let bytes = file(1, &[3, 0, 0, 0]);
    assert_eq!([read(0, &bytes), read(2, &bytes)], [1, 23]);
    assert_eq!(read(1, b"SFRW"), 21);
}

#[test]
fn what_comes_after() {
    // Too little scratch, a public, a cell and a term beyond the wires, a term that isn't bound, and
    // a word left over, each with some of those after it.
    let later: [(u32, usize, u32, &[u32]); 6] = [
        (16, 2, 9, &[1, 9, 9, 1, 1, 9, 1, 0, 7]),
        (12, 3, 3, &[1, 9, 9, 1, 1, 9, 1, 0, 7]),
        (13, 3, 2, &[1, 9, 9, 1, 1, 9, 1, 0, 7]),
        (14, 3, 2, &[1, 0, 0, 1, 2, 9, 1, 1, 1, 0, 7]),
        (15, 3, 2, &[1, 0, 0, 1, 2, 1, 1, 9, 1, 0, 7]),
        (28, 3, 2, &[1, 0, 0, 1, 1, 1, 0, 0, 7]),
    ];
    for (number, scratch, last, rest) in later {
        let numbers = |publics: &[u32]| numbers(&[publics, rest], [4, 4, 20, scratch]);
        assert_eq!(numbers(&[3, 2, 0, 0, last, 0]), [number; 2]);
        assert_eq!(numbers(&[3, 2, 0, 1, last, 0]), [number, 46]);
        assert_eq!(numbers(&[3, 1, last, 0]), [number, 46]);
    }
    // More wires than any scratch has words.
    assert_eq!(numbers(&[&[M + 1, 1, 0, 0], NEITHER], AMPLE), [16; 2]);
    assert_eq!(numbers(&[&[M + 1, 1, 0, 1], NEITHER], AMPLE), [16, 46]);
}
