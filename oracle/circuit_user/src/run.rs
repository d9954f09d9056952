//! Random lists of calls, played on both sides and compared call by call.

use std::{
    cell::Cell,
    panic::{self, AssertUnwindSafe},
};

use crate::{
    calls::*,
    counts::{why, Counts, ENOUGH},
    files, owned,
    plan::Plan,
    source,
};

thread_local! {
    static PLAYING: Cell<bool> = const { Cell::new(false) };
}

/// Keeps the panics of calls quiet; any other one is told as always.
fn silence_panics() {
    let told = panic::take_hook();
    panic::set_hook(Box::new(move |info| {
        if !PLAYING.get() {
            told(info);
        }
    }));
}

/// What a call answers, and where it panics with what message.
fn answer(play: impl FnOnce() -> Answer) -> Answer {
    PLAYING.set(true);
    let answer = panic::catch_unwind(AssertUnwindSafe(play));
    PLAYING.set(false);
    answer.unwrap_or_else(|panic| {
        let text = panic.downcast_ref::<&str>().map(ToString::to_string);
        let text = text.or_else(|| panic.downcast_ref::<String>().cloned());
        Answer::Panicked(text.unwrap_or_default())
    })
}

/// Whether a file of more than 2^30 wires was refused for that, of which the source makes nothing: it goes on to ask the rest.
fn is_huge(call: &Call, owned: &Answer) -> bool {
    let Call::ReadInstance(_, bytes) = call else {
        return false;
    };
    let refused = Answer::Refused("scratch has fewer words than there are wires".to_string());
    *owned == refused && files::wire_count(bytes).is_some_and(|(_, count)| count > 1 << 30)
}

/// Two sides that are to be alike.
#[derive(Default)]
struct Sides {
    source: source::player::Player,
    owned: owned::player::Player,
}

impl Sides {
    /// Plays a call on both. Where they differ, how.
    fn play(&mut self, plan: &mut Plan, call: &Call, counts: &mut Counts) -> Result<(), String> {
        let asked = plan.asked();
        let by_source = answer(|| self.source.play(call, &asked));
        let by_owned = answer(|| self.owned.play(call, &asked));
        if is_huge(call, &by_owned) {
            self.source
                .forget(plan.instances.len(), plan.witnesses.len());
            counts.add_huge();
            return Ok(());
        }
        same("the answer", &by_source, &by_owned)?;
        let (seen, owned) = (self.source.seen(&asked), self.owned.seen(&asked));
        same("allocators", &seen.allocators, &owned.allocators)?;
        same("relations", &seen.relations, &owned.relations)?;
        same("builders", &seen.builders, &owned.builders)?;
        same("what a list took", &seen.taken, &owned.taken)?;
        counts.add(call, &by_source, number(plan, call, &by_source)?);
        plan.learn(call, &by_source, &seen);
        if plan.forget() {
            self.source.forget(0, 0);
            self.owned.forget(0, 0);
        }
        Ok(())
    }
}

/// Of a check its number, which must say what was answered.
fn number(plan: &Plan, call: &Call, answer: &Answer) -> Result<Option<u32>, String> {
    let Call::Check(i, j, kind) = call else {
        return Ok(None);
    };
    let (width, instance, witness) = plan.checked(*i, *j);
    let number = why(width, instance, witness, kind);
    same("the number", answer, &Answer::Yes(vec![number == 0]))?;
    Ok(Some(number))
}

fn same<T: PartialEq + std::fmt::Debug>(what: &str, source: &T, owned: &T) -> Result<(), String> {
    if source == owned {
        Ok(())
    } else {
        Err(format!(
            "{what} differ\nsource: {source:?}\nowned:  {owned:?}"
        ))
    }
}

/// One list: how many calls it had.
fn list(seed: u64, counts: &mut Counts) -> Result<u64, String> {
    let mut plan = Plan::new(seed);
    let mut sides = Sides::default();
    let mut told = String::new();
    let length = plan.length();
    for i in 0..length {
        let call = plan.next();
        told += &format!("{i:>4} {call:?}\n");
        let played = sides.play(&mut plan, &call, counts);
        played.map_err(|how| format!("{told}list of seed {seed}, call {i}: {how}"))?;
    }
    Ok(length as u64)
}

/// Lists of at least so many calls; whether nothing differed and nothing was missing.
pub fn run(seed: u64, count: u64) -> bool {
    silence_panics();
    let mut counts = Counts::default();
    let (mut calls, mut lists) = (0, 0);
    while calls < count {
        match list(seed.wrapping_add(lists), &mut counts) {
            Ok(length) => calls += length,
            Err(told) => {
                println!("{told}");
                return false;
            }
        }
        lists += 1;
    }
    println!("circuit: {calls} calls in {lists} lists, no difference");
    counts.print();
    let missing = counts.missing();
    if calls >= ENOUGH && !missing.is_empty() {
        println!("never seen: {}", missing.join("; "));
        return false;
    }
    true
}
