//! Questions and the number when the answer is no, and those that many calls put.

use crate::{On, Share, MAX_COUNT, MAX_RELATIONS, P};

/// Go on, or leave with the number of the question that said no.
pub type Asked = Result<(), u32>;

/// Put one question.
pub fn ask(number: u32, yes: bool) -> Asked {
    if yes {
        Ok(())
    } else {
        Err(number)
    }
}

/// The number that a call answers: 0 where no question said no.
pub fn number_of(asked: Asked) -> u32 {
    match asked {
        Ok(()) => 0,
        Err(number) => number,
    }
}

/// 1: a width from 1 to 24.
pub fn is_width(width: u32) -> bool {
    (1..=24).contains(&width)
}

/// 2: a lent word store of at most 2^30 words. Every lent slice of words is taken for
/// one, the lists of a query, a step or a set list and the sheet among them.
pub fn is_store(words: &[u32]) -> bool {
    words.len() <= MAX_COUNT as usize
}

/// 2: a label of less than 2^32 bytes.
pub fn is_label_size(label: &[u8]) -> bool {
    u32::try_from(label.len()).is_ok()
}

/// 2 and 10: whether `count` items of `size` words each lie within the store.
pub fn fits(count: u32, size: u32, store: &[u32]) -> bool {
    u64::from(count) * u64::from(size) <= store.len() as u64
}

/// 2: the wires that a relation's record may count, wherever such a record is handed in, and
/// that the slots hold, where these are lent. On a shared allocator (02, R-2) no more than
/// eight relations are opened; where none is, there is no count yet, so that nothing is asked
/// of it.
pub fn ask_vars(on: &On, slots: Option<&[u32]>) -> Asked {
    let vars_count = on.rel.vars_count;
    let opened = on.share.map_or(1, |share| share.opened);
    ask(2, opened <= MAX_RELATIONS)?;
    ask(2, opened == 0 || (1..=MAX_COUNT).contains(&vars_count))?;
    let held = slots.is_none_or(|slots| fits(vars_count, 1, slots));
    ask(2, opened == 0 || held)
}

/// 42, put to every call of a relation on a shared allocator after the last 2: a relation of
/// this number is opened. A single relation isn't asked.
pub fn ask_opened(on: &On) -> Asked {
    let opened = |share: Share| share.index < share.opened;
    ask(42, on.share.is_none_or(opened))
}

/// 2: the equation store fits what the record counts: the used words, and by itself the
/// equation count, of which each takes two words or more. Whether these two agree is
/// question 11.
pub fn equations_fit(equations: u32, words: u32, store: &[u32]) -> bool {
    fits(equations, 2, store) && fits(words, 1, store)
}

/// 1 and 2 of a call that is handed a relation's record and its slots.
pub fn ask_slots(on: &On, slots: &[u32]) -> Asked {
    ask(1, is_width(on.rel.width))?;
    ask(2, is_store(slots))?;
    ask_vars(on, Some(slots))
}

/// 3: a wire is below 2^30.
pub fn is_var(word: u32) -> bool {
    word < MAX_COUNT
}

/// 4: a unit is below p.
pub fn is_unit(word: u32) -> bool {
    word < P
}

pub fn are_vars(words: &[u32]) -> bool {
    words.iter().all(|&word| is_var(word))
}

pub fn are_units(words: &[u32]) -> bool {
    words.iter().all(|&word| is_unit(word))
}

/// 9: a list of a query or a step has `width` words.
pub fn is_list(width: u32, words: &[u32]) -> bool {
    words.len() == width as usize
}

/// 5 and 6, put to a call that would add `count` wires, and between them 43 where there is a
/// quota: it holds these wires and those that the relation obtained.
pub fn ask_room_for_vars(on: &On, slots: &[u32], count: u32) -> Asked {
    let total = |before: u32| u64::from(before) + u64::from(count);
    ask(5, total(on.rel.vars_count) <= u64::from(MAX_COUNT))?;
    if let Some(share) = on.share {
        ask(43, total(share.obtained) <= u64::from(share.quota))?;
    }
    ask(6, total(on.rel.vars_count) <= slots.len() as u64)
}
