//! Where documents 01 and 02 and the sources part, each with the smallest input that shows it.

use std::str::from_utf8;

use source::Parts;

use crate::{
    calls::{Call, State},
    held::{self, Held, Room},
};

/// SFRI of width 1 without a label whose words after that are these.
fn file(words: &[u32]) -> Vec<u8> {
    let words = [&[1, 4, 0], words].concat();
    let mut bytes = b"SFRI\x01".to_vec();
    bytes.extend(words.iter().flat_map(|word| word.to_le_bytes()));
    bytes
}

/// The numbers of the plain and of the strict read.
fn read(bytes: &[u8]) -> [u32; 2] {
    held::reads(1, bytes, Room::AMPLE).map(|(number, _)| number)
}

/// The sources search held publics by halving. 01: the last pair that lists the wire. They
/// agree on publics that strictly increase, which are all that a gate or a read lets by;
/// on a wire listed twice in a row, the standard library promises neither pair.
#[test]
fn value_in_publics_that_do_not_increase() {
    let parts = Parts {
        vars_count: 2,
        publics: vec![1, 3, 0, 4],
        ..Parts::default()
    };
    let held = Held::from_parts(1, &parts);
    let value = |var| reading::public_value(held.ins, &held.publics, var).value;
    let instance = source::ungated(1, &parts);
    assert_eq!((value(1), instance.value(1)), (Some(3), None));
}

/// The sources read any wire count and make a list as long as that. 01: 16, as no scratch
/// has more than 2^30 words.
#[test]
fn more_wires_than_any_scratch() {
    let bytes = file(&[(1 << 30) + 1, 0, 0, 0]);
    assert_eq!(bytes.len(), 33);
    assert!(source::instance_from_bytes(1, &bytes).is_ok());
    assert_eq!(read(&bytes)[0], 16);
}

/// One message for a unit that is cut off and for one that is too large. 01: 20 and 4.
#[test]
fn one_message_for_two_numbers() {
    let cut = file(&[1, 1, 0]);
    let large = file(&[1, 1, 0, reading::P]);
    for (bytes, number) in [(cut, 20), (large, 4)] {
        assert_eq!(read(&bytes)[0], number);
        let message = source::instance_from_bytes(1, &bytes).err();
        assert_eq!(message.as_deref(), Some("malformed encoding: unit value"));
    }
}

/// The sources read files that don't list wire 0, or with another value, or that have no wires, and
/// have no other read. 02: 46 of the strict one, before the gate's numbers, which the sources give
/// where wire 0 is listed and there are no wires.
#[test]
fn files_without_the_zero_wire() {
    let read_there = |bytes: &[u8]| source::instance_from_bytes(1, bytes).is_ok();
    for words in [&[1, 0, 0, 0][..], &[1, 1, 0, 1, 0, 0], &[0, 0, 0, 0]] {
        let bytes = file(words);
        assert_eq!((read_there(&bytes), read(&bytes)), (true, [0, 46]));
    }
    let bytes = file(&[0, 1, 0, 0, 0, 0]);
    assert_eq!((read_there(&bytes), read(&bytes)), (false, [12, 46]));
    let kept = file(&[1, 1, 0, 0, 0, 0]);
    assert_eq!((read_there(&kept), read(&kept)), (true, [0, 0]));
}

/// Where the sources panic, 01 gives a number; what is left behind is the same.
#[test]
fn panics() {
    source::silence_panics();
    let relation = source::relation(1, "");
    assert!(relation.allocate_vars(2).is_some());
    assert!(relation.allocate_vars(1 << 30).is_none()); // 5
    assert_eq!(relation.vars_count(), 3);
    assert!(relation.set_var(3, 0).is_none()); // 7
    assert!(relation.set_var(0, 5).is_none()); // 8
    assert!(relation.set_vars(&[1, 2], &[6]).is_none()); // 9
    assert_eq!(relation.slots(), [0, 6, u32::MAX]);
}

/// The sources open as many relations on one allocator as they are asked for, without a quota.
/// 02: 42 and 43.
#[test]
fn a_ninth_relation_and_a_wire_beyond_the_quota() {
    let source = source::Allocator::default();
    let (mut allocator, mut slots) = (reading::VarAllocator::default(), [0; 4]);
    let uses = &mut [0; 4];
    for index in 0..9 {
        let relation = source::with_allocator(1, &source);
        assert_eq!(relation.allocate_vars(1), Some(vec![index + 1]));
        let opened = reading::with_allocator(allocator, 1, 0, &mut slots, uses);
        assert_eq!(opened.number, if index < 8 { 0 } else { 42 });
        allocator = opened.allocator;
        if opened.number == 0 {
            let rel = opened.relation;
            let answer = reading::allocate_vars_on(allocator, index, rel, &mut slots, 1);
            assert_eq!(answer.number, 43);
        }
    }
}

/// The sources withdraw nothing, so that a relation of what remains is built afresh there, and keep
/// no counts: their gate goes over the queries. 02: 13 and 15 by the use counts and the stray
/// count. They agree where these are right, as every list of calls leaves them.
#[test]
fn counts_that_no_list_of_calls_leaves() {
    let gate = |state: &State| held::gate(state, "", Room::AMPLE).0;
    let mut state = State::sized(1, 0, 0);
    assert_eq!((state.new_relation(1), gate(&state)), (0, 0));
    state.rel.stray = 1;
    assert!(source::relation(1, "").compile().is_ok());
    assert_eq!(gate(&state), 13);

    // A wire that isn't allocated stands in a query, and no count says so.
    let mut state = State::sized(1, 2, 0);
    state.new_relation(1);
    assert_eq!(state.run(&Call::Record(vec![0], vec![1])).number, 0);
    let relation = source::relation(1, "");
    relation.add_permutation(&[0], &[1]);
    assert_eq!((gate(&state), relation.compile().is_err()), (13, true));
    (state.uses, state.rel.stray) = (vec![0], 0);
    assert_eq!(gate(&state), 0);
}

/// The sources refuse a label with the standard library's error, whose place is where the
/// character begins that isn't one. 02: the place of the first byte after which no continuation
/// can be UTF-8, or the length. C2 alone, and C2 and any byte after it but 80 to BF, show it; on a
/// byte with which no character begins both are the same.
#[test]
fn the_place_of_a_bad_byte() {
    let places = |bytes: &[u8]| {
        let error = from_utf8(bytes).unwrap_err();
        let scan = reading::scan_utf8(bytes);
        (error.valid_up_to(), error.error_len(), scan.place)
    };
    assert_eq!(places(b"\xC2"), (0, None, 1));
    assert_eq!(places(b"\xC2\x00"), (0, Some(1), 1));
    assert_eq!(places(b"\xE1\x80\x00"), (0, Some(2), 2));
    assert_eq!(places(b"\xF1\x80\x80\x00"), (0, Some(3), 3));
    assert_eq!(places(b"\x80"), (0, Some(1), 0));
}
