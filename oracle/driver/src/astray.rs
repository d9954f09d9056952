//! Inputs led astray: records, stores, sheets and labels that lie beside the sound ones.

use reading::{Share, MAX_COUNT, MAX_RELATIONS};
use source::Params;

use crate::{
    calls::{State, DIRT},
    generate,
    held::Held,
    rng::Rng,
};

/// A word at a bound or beside it, or any.
pub fn near(rng: &mut Rng, word: u32) -> u32 {
    match rng.below(4) {
        0 => word,
        1 => word.wrapping_add(1),
        2 => word.wrapping_sub(1),
        _ => rng.edge(),
    }
}

/// A length at a bound or beside it, or shorter.
pub fn near_len(rng: &mut Rng, len: usize) -> usize {
    match rng.below(4) {
        0 => len,
        1 => len + 1,
        2 => len.saturating_sub(1),
        _ => rng.below(len + 4),
    }
}

/// Some word of a store becomes another.
pub fn word(rng: &mut Rng, store: &mut [u32]) {
    if !store.is_empty() {
        let at = rng.below(store.len());
        store[at] = rng.edge();
    }
}

/// Some held word of a relation that calls alone have made becomes another.
#[cfg(feature = "library")]
pub fn held_word(rng: &mut Rng, state: &mut State) {
    let (slots, queries, equations) = state.held();
    let (slots, queries, equations) = (slots.len(), queries.len(), equations.len());
    match rng.below(3) {
        0 => word(rng, &mut state.slots[..slots]),
        1 => word(rng, &mut state.queries[..queries]),
        _ => word(rng, &mut state.equations[..equations]),
    }
}

/// A width, or any word.
pub fn width(rng: &mut Rng) -> u32 {
    if rng.once_in(2) {
        rng.edge()
    } else {
        rng.width()
    }
}

/// A relation's number that isn't opened, an allocator or a quota that calls alone don't make,
/// or no store.
fn share(rng: &mut Rng, state: &mut State, share: Share) -> Share {
    let rel = &mut state.rel;
    let mut share = share;
    match rng.below(10) {
        0 => share.index = near(rng, share.opened),
        1 => share.index = rng.below(9) as u32,
        2 => share.opened = near(rng, MAX_RELATIONS),
        3 => share.opened = 0,
        4 => (share.opened, rel.vars_count) = (0, rng.edge()),
        5 => share.quota = near(rng, share.obtained),
        6 => share.obtained = near(rng, share.quota),
        7 => (share.quota, share.obtained) = (rng.edge(), rng.edge()),
        8 => {
            // Neither opened nor fitting.
            share.index = share.opened;
            (rel.queries, rel.equations, rel.words) = (rng.edge(), rng.edge(), rng.edge());
        }
        _ => {
            let stores = [
                &mut state.slots,
                &mut state.queries,
                &mut state.equations,
                &mut state.uses,
            ];
            for store in stores {
                if rng.once_in(2) {
                    store.clear();
                }
            }
        }
    }
    share
}

/// A record or stores that calls alone don't make.
pub fn state(rng: &mut Rng, state: &mut State) {
    if let Some(shared) = state.share {
        if rng.once_in(2) {
            state.share = Some(share(rng, state, shared));
            return;
        }
    }
    let (slots, queries) = (state.slots.len() as u32, state.queries.len() as u32);
    let equations = state.equations.len() as u32;
    let rel = &mut state.rel;
    match rng.below(16) {
        0 => rel.width = width(rng),
        1 => rel.vars_count = near(rng, slots),
        2 => rel.vars_count = near(rng, MAX_COUNT),
        3 => rel.queries = near(rng, queries / (2 * rel.width.clamp(1, 24))),
        4 => rel.equations = near(rng, equations / 2),
        5 => rel.equations = near(rng, rel.equations),
        6 => rel.words = near(rng, equations),
        7 => rel.words = rng.below(equations as usize + 1) as u32,
        8 => {
            let store = match rng.below(4) {
                0 => &mut state.slots,
                1 => &mut state.queries,
                2 => &mut state.equations,
                _ => &mut state.uses,
            };
            let len = rng.below(store.len() + 3);
            store.resize(len, DIRT);
        }
        9 => word(rng, &mut state.queries),
        10 => word(rng, &mut state.equations),
        11 => rel.stray = near(rng, rel.stray),
        12 => {
            let len = near_len(rng, state.uses.len());
            state.uses.resize(len, 0);
        }
        13 => word(rng, &mut state.uses),
        14 => {
            for count in &mut state.uses {
                *count = near(rng, *count);
            }
        }
        _ => {
            for slot in &mut state.slots {
                if rng.once_in(3) {
                    *slot = rng.edge();
                }
            }
        }
    }
}

/// Counts that a call on these cells has to judge: of some of them such that it just passes or just
/// fails at 0 or at 2^30, or any word; and now and then a use store of another length.
pub fn counts(rng: &mut Rng, state: &mut State, cells: &[u32]) {
    let slots = state.slots.len();
    let is_stray = |cell: u32| cell as usize >= slots;
    if rng.once_in(4) {
        // Where the others are right, 10 is the answer.
        let len = near_len(rng, state.uses.len());
        state.uses.resize(len, rng.edge());
        return;
    }
    for _ in 0..rng.between(1, 3) {
        let cell = if cells.is_empty() {
            0
        } else {
            *rng.pick(cells)
        };
        let like = |&&other: &&u32| other == cell || is_stray(other) && is_stray(cell);
        let times = cells.iter().filter(like).count() as u32;
        let count = if is_stray(cell) {
            &mut state.rel.stray
        } else {
            match state.uses.get_mut(cell as usize) {
                Some(count) => count,
                None => continue,
            }
        };
        *count = match rng.below(10) {
            0 => times,
            1 => times.saturating_sub(1),
            2 => 0,
            3 => MAX_COUNT - times,
            4 => MAX_COUNT - times + 1,
            5 => MAX_COUNT,
            6 => MAX_COUNT + times,
            7 => MAX_COUNT + times + 1,
            8 => near(rng, *count),
            _ => rng.edge(),
        };
    }
    if rng.once_in(8) {
        let len = near_len(rng, state.uses.len());
        state.uses.resize(len, rng.edge());
    }
}

/// Counts of wires, allocated or not, that no list of calls leaves there: 13 and 15 go by these.
pub fn miscount(rng: &mut Rng, state: &mut State) {
    let count = |rng: &mut Rng| match rng.below(3) {
        0 => 0,
        1 => 1,
        _ => rng.edge(),
    };
    for _ in 0..rng.between(1, 6) {
        let vars = state.rel.vars_count as usize;
        match rng.below(4) {
            0 => state.rel.stray = count(rng),
            1 if vars < state.uses.len() => {
                let at = rng.between(vars, state.uses.len() - 1);
                state.uses[at] = count(rng);
            }
            _ => {
                let at = rng.below(vars.clamp(1, 9));
                if let Some(used) = state.uses.get_mut(at) {
                    *used = count(rng);
                }
            }
        }
    }
}

/// Equations that may end elsewhere than at the used words: by a count, the used words or a word.
#[cfg(feature = "library")]
pub fn equations(rng: &mut Rng, state: &mut State) {
    let rel = &mut state.rel;
    match rng.below(6) {
        0 => rel.equations = near(rng, rel.equations),
        1 => rel.words = near(rng, rel.words),
        2 => rel.words = rel.words.saturating_sub(2),
        3 => {
            let held = (rel.words as usize).min(state.equations.len());
            word(rng, &mut state.equations[..held]);
        }
        4 if !state.equations.is_empty() => {
            state.equations[0] = near(rng, state.equations[0]);
        }
        _ => {
            // One without terms more, in words that were used or not.
            rel.equations = rel.equations.wrapping_add(1);
            rel.words = rel.words.wrapping_add(2);
            let at = (rel.words as usize).saturating_sub(2);
            if let Some(count) = state.equations.get_mut(at) {
                *count = rng.below(2) as u32;
            }
        }
    }
}

/// A sheet, sound or nearly so.
pub fn params(rng: &mut Rng, width: u32) -> Params {
    let mut params = generate::params(rng, width);
    lead_params(rng, width, &mut params);
    params
}

/// A sheet of that width becomes nearly sound, half of the time.
pub fn lead_params(rng: &mut Rng, width: u32, params: &mut Params) {
    match rng.below(12) {
        0 => params.rounds = near(rng, params.rounds),
        1 => {
            params.rounds = near(rng, 128).min(200);
            let words = params.rounds * (width + 1) + width * width;
            params.words = vec![1; words as usize];
        }
        2 => {
            let len = near_len(rng, params.words.len());
            params.words.resize(len, 1);
        }
        3 if params.rounds > 0 => {
            let round = rng.below(params.rounds as usize);
            params.words[round * (width as usize + 1)] = near(rng, 1);
        }
        4 | 5 => word(rng, &mut params.words),
        _ => {}
    }
}

/// A label whose bytes may be no text.
pub fn label(rng: &mut Rng, label: &[u8]) -> Vec<u8> {
    let mut label = label.to_vec();
    if !label.is_empty() && rng.once_in(3) {
        let at = rng.below(label.len());
        label[at] = rng.byte();
    } else if rng.once_in(6) {
        label.extend([*rng.pick(&[0x80, 0xC2, 0xED, 0xF4, 0xFF])]);
    }
    label
}

/// A record or held words that no gate makes.
pub fn held(rng: &mut Rng, held: &mut Held) {
    let (publics, queries) = (held.publics.len() as u32, held.queries.len() as u32);
    let equations = held.equations.len() as u32;
    let ins = &mut held.ins;
    match rng.below(16) {
        0 => ins.width = width(rng),
        1 => ins.vars_count = rng.edge(),
        2 => ins.vars_count = near(rng, ins.vars_count),
        3 => ins.queries = near(rng, queries / (2 * ins.width.clamp(1, 24))),
        4 => ins.queries = near(rng, ins.queries),
        5 => ins.equations = near(rng, equations / 2),
        6 => ins.equations = near(rng, ins.equations),
        7 => ins.words = near(rng, equations),
        8 => ins.words = near(rng, ins.words),
        9 => ins.publics = near(rng, publics / 2),
        10 => ins.publics = near(rng, ins.publics),
        11 => word(rng, &mut held.publics),
        12 => word(rng, &mut held.queries),
        13 => word(rng, &mut held.equations),
        14 => held.label = label(rng, &held.label),
        _ => {
            let store = match rng.below(3) {
                0 => &mut held.publics,
                1 => &mut held.queries,
                _ => &mut held.equations,
            };
            let len = near_len(rng, store.len());
            store.resize(len, 0);
        }
    }
}
