//! SFRI and SFRW, written and read.

use super::*;

#[test]
fn written_exactly() {
    let a = instance_a();
    let words: Vec<u8> = [1, 4, 0, 3, 2, 0, 0, 2, 5, 1, 1, 2, 1, 1, 1, 3, 6]
        .iter()
        .flat_map(|word: &u32| word.to_le_bytes())
        .collect();
    assert_eq!(a.bytes(), [b"SFRI\x01".as_slice(), &words].concat());
    let mut out = [0xEE; 75];
    assert_eq!(a.write(&mut out[..72]), Written { number: 10, len: 0 });
    assert_eq!(out, [0xEE; 75]);
    assert_eq!(a.write(&mut out), Written { number: 0, len: 73 });
    assert_eq!(out[73..], [0xEE; 2]);
}

#[test]
fn ungated_parts_are_written() {
    let mut held = instance_a();
    held.ins.vars_count = 0;
    held.publics[..4].copy_from_slice(&[7, 1, 7, 2]);
    let bytes = held.bytes();
    assert_eq!(bytes[17..21], [0; 4]);
    assert_eq!(read(1, &bytes, AMPLE).0, 27);
    held.ins.vars_count = u32::MAX;
    assert_eq!(held.bytes().len(), 73);
}

#[test]
fn held_words_of_a_write() {
    let a = instance_a();
    let number = |change: fn(&mut Held)| {
        let mut held = a.clone();
        change(&mut held);
        held.write(&mut []).number
    };
    assert_eq!(number(|_| ()), 10);
    assert_eq!(number(|held| held.publics[3] = P), 11);
    assert_eq!(number(|held| held.publics[2] = M), 11);
    assert_eq!(number(|held| held.publics[4] = M), 10);
    assert_eq!(number(|held| held.queries[0] = M), 11);
    assert_eq!(number(|held| held.equations[3] = P), 11);
    assert_eq!(number(|held| held.ins.words = 5), 11);
    assert_eq!(number(|held| held.label = vec![0xC0, 0x80]), 11);
    assert_eq!(number(|held| held.ins.publics = 33), 2);
    assert_eq!(number(|held| held.ins.width = 25), 1);
}

#[test]
fn header_fields_in_order() {
    let bytes = instance_a().bytes();
    for (place, number) in [(0, 21), (4, 22), (5, 23), (9, 24), (13, 20)] {
        for later in [1, 0] {
            let mut bytes = bytes.clone();
            bytes[place] ^= 0x80;
            // A later fault changes nothing.
            bytes.truncate(bytes.len() - later);
            assert_eq!(read(1, &bytes, AMPLE).0, number, "byte {place}");
        }
    }
    assert_eq!(read(2, &bytes, AMPLE).0, 23);
    assert_eq!(read(0, &[], AMPLE).0, 1);
    assert_eq!(read(25, &bytes, AMPLE).0, 1);
    assert_eq!(read(1, b"XXXX", AMPLE).0, 21);
    assert_eq!(read(1, b"SFRI\x02", AMPLE).0, 22);
}

#[test]
fn room_is_asked_item_by_item() {
    // Two pairs fit, the third is whole, cut, or no unit; the count says five.
    let head = [9, 5, 1, 1, 2, 2];
    let third = |words: &[u32]| file(1, &[&head, words].concat());
    assert_eq!(read(1, &third(&[3, 3]), [4, 0, 0, 9]).0, 10);
    assert_eq!(read(1, &third(&[3]), [4, 0, 0, 9]).0, 20);
    assert_eq!(read(1, &third(&[3, P]), [4, 0, 0, 9]).0, 4);
    assert_eq!(read(1, &third(&[M, P]), [4, 0, 0, 9]).0, 3);
    // A query, and an equation whose last weight is no unit.
    let query = |words: &[u32]| file(1, &[&[9, 0, 1], words].concat());
    assert_eq!(read(1, &query(&[1, M]), [0, 1, 0, 9]).0, 3);
    assert_eq!(read(1, &query(&[1, 2]), [0, 1, 0, 9]).0, 10);
    assert_eq!(read(1, &query(&[1, 2]), [0, 2, 0, 9]).0, 20);
    let equation = |words: &[u32]| file(1, &[&[9, 0, 0, 1], words].concat());
    assert_eq!(read(1, &equation(&[2, 0, 0, 0, P, 0]), [0, 0, 2, 9]).0, 4);
    assert_eq!(read(1, &equation(&[2, 0, 0, 0, 0]), [0, 0, 2, 9]).0, 20);
    assert_eq!(read(1, &equation(&[2, 0, 0, 0, 0, 0]), [0, 0, 5, 9]).0, 10);
    assert_eq!(read(1, &equation(&[2, 0, 0, 0, 0, 0]), [0, 0, 6, 9]).0, 0);
    assert_eq!(read(1, &equation(&[u32::MAX, 0]), [0, 0, 5, 9]).0, 20);
}

#[test]
fn after_the_fields() {
    // A cut equation comes before unsorted publics, these before scratch.
    let publics = [2, 2, 5, 0, 1, 0];
    assert_eq!(
        read(1, &file(1, &[&publics[..], &[0]].concat()), [4, 0, 0, 0]).0,
        20
    );
    let whole = file(1, &[&publics[..], &[0, 0]].concat());
    assert_eq!(read(1, &whole, [4, 0, 0, 0]).0, 27);
    // Scratch before 12, 12 before 13, and a wire count of 0 is one like any other.
    assert_eq!(
        read(1, &file(1, &[3, 1, 3, 0, 1, 9, 9, 0]), [4, 4, 4, 2]).0,
        16
    );
    assert_eq!(
        read(1, &file(1, &[3, 1, 3, 0, 1, 9, 9, 0]), [4, 4, 4, 3]).0,
        12
    );
    assert_eq!(
        read(1, &file(1, &[3, 1, 2, 0, 1, 9, 9, 0]), [4, 4, 4, 3]).0,
        13
    );
    assert_eq!(read(1, &file(1, &[0, 0, 0, 0]), [0; 4]).0, 0);
    assert_eq!(read(1, &file(1, &[0, 0, 0, 1, 0, 7]), [0, 0, 2, 0]).0, 0);
    assert_eq!(read(1, &file(1, &[0, 1, 0, 0, 0, 0]), [4; 4]).0, 12);
    assert_eq!(read(1, &file(1, &[0, 0, 0, 1, 1, 0, 0, 0]), [4; 4]).0, 14);
    assert_eq!(read(1, &file(1, &[M + 1, 0, 0, 0]), [4; 4]).0, 16);
    // The gate's numbers come before the bytes left over.
    assert_eq!(
        read(1, &file(1, &[3, 0, 0, 1, 1, 1, 1, 0, 9]), [4; 4]).0,
        15
    );
    assert_eq!(
        read(1, &file(1, &[3, 0, 0, 1, 1, 1, 0, 0, 9]), [4; 4]).0,
        28
    );
}

#[test]
fn read_equals_written() {
    let mut a = instance_a();
    a.label = "µ".as_bytes().to_vec();
    let (number, held) = read(1, &a.bytes(), [5, 3, 6, 3]);
    assert_eq!(number, 0);
    assert_eq!((held.ins, held.label), (a.ins, a.label));
    assert_eq!(held.publics, [0, 0, 2, 5, 0]);
    assert_eq!(held.queries, [1, 2, 0]);
    assert_eq!(held.equations, [1, 1, 3, 6, 0, 0]);
}

#[test]
fn witness_bytes() {
    let rec = Trace { width: 2, steps: 2 };
    let trace = [1, 2, 3, 4, 5, 6, 7, P - 1, DIRT];
    let mut out = [0xEE; 50];
    assert_eq!(witness_to_bytes(rec, &trace, &mut out[..48]).number, 10);
    assert_eq!(out, [0xEE; 50]);
    let written = witness_to_bytes(rec, &trace, &mut out);
    assert_eq!((written.number, written.len, out[49]), (0, 49, 0xEE));
    let back = |bytes: &[u8], len: usize| {
        let mut store = vec![DIRT; len];
        let answer = witness_from_bytes(2, bytes, &mut store);
        if answer.number != 0 {
            assert!(all_zero(&store) && answer.trace == Trace::default());
        }
        (answer.number, answer.trace, store)
    };
    let read = back(&out[..49], 9);
    assert_eq!((read.0, read.1), (0, rec));
    assert_eq!(read.2, [1, 2, 3, 4, 5, 6, 7, P - 1, 0]);
    assert_eq!(back(&out[..49], 7).0, 10);
    assert_eq!(back(&out, 8).0, 28);
    for cut in 0..49 {
        assert_eq!(back(&out[..cut], 8).0, 20);
    }
    for (place, number) in [(3, 21), (4, 22), (5, 23), (9, 24), (48, 4)] {
        let mut bytes = out[..49].to_vec();
        bytes[place] ^= 0x80;
        assert_eq!(back(&bytes, 7).0, number);
    }
    let held = [P, 0, 0, 0, 0, 0, 0, 0];
    assert_eq!(witness_to_bytes(rec, &held, &mut []).number, 11);
    assert_eq!(witness_to_bytes(rec, &held[..7], &mut []).number, 2);
    let wide = Trace { width: 25, ..rec };
    assert_eq!(witness_to_bytes(wide, &held, &mut []).number, 1);
}
