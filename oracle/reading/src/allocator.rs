//! Wires and their slots (the source's `allocator.rs`).

use std::collections::BTreeSet;

use crate::{
    questions::{
        ask, ask_opened, ask_room_for_vars, ask_slots, ask_vars, is_store, is_unit, is_var,
        is_width, number_of, Asked,
    },
    uses::ask_length,
    Flag, On, Relation, RelationAnswer, SetAnswer, Tally, Value, UNASSIGNED,
};

/// A relation with one wire, which has the value 0 (01: fresh), and no query that uses any (02,
/// Questions 1, 2, 6, 10.
pub fn new(width: u32, slots: &mut [u32], uses: &mut [u32]) -> RelationAnswer {
    match ask_new(width, slots, uses) {
        Err(number) => RelationAnswer {
            number,
            first: 0,
            relation: Relation::default(),
        },
        Ok(()) => {
            slots[0] = 0;
            uses.fill(0);
            let relation = Relation {
                width,
                vars_count: 1,
                ..Relation::default()
            };
            RelationAnswer {
                number: 0,
                first: 0,
                relation,
            }
        }
    }
}

fn ask_new(width: u32, slots: &[u32], uses: &[u32]) -> Asked {
    ask(1, is_width(width))?;
    ask(2, is_store(slots) && is_store(uses))?;
    ask(6, !slots.is_empty())?;
    ask_length(slots, uses)
}

/// The next `count` wires, unassigned (01: allocate). Questions 1, 2, 5, 6.
pub fn allocate_vars(on: impl Into<On>, slots: &mut [u32], count: u32) -> RelationAnswer {
    let on @ On { rel, .. } = on.into();
    if let Err(number) = ask_allocate_vars(&on, slots, count) {
        return RelationAnswer {
            number,
            first: 0,
            relation: rel,
        };
    }
    let relation = Relation {
        vars_count: rel.vars_count + count,
        ..rel
    };
    slots[rel.vars_count as usize..relation.vars_count as usize].fill(UNASSIGNED);
    RelationAnswer {
        number: 0,
        first: rel.vars_count,
        relation,
    }
}

fn ask_allocate_vars(on: &On, slots: &[u32], count: u32) -> Asked {
    ask_slots(on, slots)?;
    ask_opened(on)?;
    ask_room_for_vars(on, slots, count)
}

/// Assigns a wire (01: set). Questions 1, 2, 3, 4, 7, 8.
pub fn set_var(on: impl Into<On>, slots: &mut [u32], var: u32, value: u32) -> SetAnswer {
    let on = on.into();
    let asked = ask_slots(&on, slots).and_then(|()| ask_opened(&on));
    let vars = BTreeSet::from([var]);
    let (asked, fresh) = count_fresh(slots, &vars, |slots| {
        asked.and_then(|()| set_pair(on.rel, slots, var, value))
    });
    SetAnswer {
        number: number_of(asked),
        fresh: fresh == 1,
    }
}

/// How many of a call's sets are fresh: of a wire whose slot was F just before (02, R-5). `vars`
/// are the wires that the call may set, each of them once. No set leaves F in a slot, so a wire is
/// fresh at most once, in the first of its sets: where it has F before the call and not after it.
pub fn count_fresh<T>(
    slots: &mut [u32],
    vars: &BTreeSet<u32>,
    call: impl FnOnce(&mut [u32]) -> T,
) -> (T, usize) {
    let unset = |slots: &[u32]| {
        let words = vars.iter().filter_map(|&var| slots.get(var as usize));
        words.filter(|&&slot| slot == UNASSIGNED).count()
    };
    let before = unset(slots);
    let answer = call(slots);
    (answer, before - unset(slots))
}

/// 3, 4, 7 and 8 put to one pair; its slot is written where all of them say yes.
fn set_pair(rel: Relation, slots: &mut [u32], var: u32, value: u32) -> Asked {
    ask(3, is_var(var))?;
    ask(4, is_unit(value))?;
    set_slot(rel, slots, var, value)
}

/// 7 and 8 of a wire and a unit; the slot is written where both say yes.
pub fn set_slot(rel: Relation, slots: &mut [u32], var: u32, value: u32) -> Asked {
    ask(7, var < rel.vars_count)?;
    let slot = &mut slots[var as usize];
    ask(8, *slot == UNASSIGNED || *slot == value)?;
    *slot = value;
    Ok(())
}

/// Assigns the common pairs of two lists in order, up to the first refused one, and then
/// asks whether the lists have one length (01: set list).
pub fn set_vars(on: impl Into<On>, slots: &mut [u32], vars: &[u32], values: &[u32]) -> Tally {
    let mut accepted = 0;
    let common = vars.iter().zip(values).map(|(&var, _)| var).collect();
    let (asked, fresh) = count_fresh(slots, &common, |slots| {
        set_pairs(&on.into(), slots, vars, values, &mut accepted)
    });
    Tally {
        number: number_of(asked),
        accepted,
        fresh: fresh as u32,
    }
}

fn set_pairs(
    on: &On,
    slots: &mut [u32],
    vars: &[u32],
    values: &[u32],
    accepted: &mut u32,
) -> Asked {
    ask_slots(on, slots)?;
    ask(2, is_store(vars) && is_store(values))?;
    ask_opened(on)?;
    for (&var, &value) in vars.iter().zip(values) {
        set_pair(on.rel, slots, var, value)?;
        *accepted += 1;
    }
    ask(9, vars.len() == values.len())
}

/// The value of a wire: its slot, none at F or beyond the count. Questions 1, 2, 3; what
/// the slot holds isn't judged, so it may be a word that is no unit.
pub fn value(on: impl Into<On>, slots: &[u32], var: u32) -> Value {
    let on = on.into();
    let asked = ask_slots(&on, slots).and_then(|()| ask_opened(&on));
    let asked = asked.and_then(|()| ask(3, is_var(var)));
    let value = match asked {
        Ok(()) if var < on.rel.vars_count => Some(slots[var as usize]),
        _ => None,
    };
    Value {
        number: number_of(asked),
        value: value.filter(|&word| word != UNASSIGNED),
    }
}

/// Whether a wire is allocated. Questions 1, 2, 3.
pub fn is_allocated(on: impl Into<On>, var: u32) -> Flag {
    let on = on.into();
    let number = number_of(ask_is_allocated(&on, var));
    Flag {
        number,
        yes: number == 0 && var < on.rel.vars_count,
    }
}

fn ask_is_allocated(on: &On, var: u32) -> Asked {
    ask(1, is_width(on.rel.width))?;
    ask_vars(on, None)?;
    ask_opened(on)?;
    ask(3, is_var(var))
}
