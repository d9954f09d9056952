//! Lists of calls, each from a seed of its own, so that one can be run again alone.

use crate::{
    compared::{Compared, Log, Seen},
    options::Options,
};

/// Commands compared where no count is given.
const COUNT: u64 = 1_000_000;
/// Among so many, sets, set lists, ticket texts, withdrawals, reads and unsound parts of every kind are
/// to be found.
const ENOUGH: u64 = 10_000;

/// Compares lists until the commands asked for have been run: the line to end with. The
/// list that shows a difference is run again, told call by call, and there is no such line; nor
/// is there one where a kind of set, set list, ticket text, withdrawal, read or unsound part didn't
/// come about.
pub fn compare(
    options: &Options,
    mut list: impl FnMut(u64, &mut Seen, &Log) -> Compared,
) -> Option<String> {
    let name = &options.command;
    let count = options.count.unwrap_or(COUNT);
    let mut seen = Seen::default();
    let mut lists = 0;
    while seen.total < count {
        let seed = options.seed.wrapping_add(lists);
        if list(seed, &mut seen, &Log(false)).is_err() {
            println!(
                "{name}: a difference after {} commands; again with: {name} --seed {seed} --count 1",
                seen.total
            );
            if let Err(difference) = list(seed, &mut seen, &Log(true)) {
                println!("{}", difference.0);
            }
            return None;
        }
        lists += 1;
    }
    seen.print();
    if let (ENOUGH.., Some(missing)) = (seen.total, seen.missing(name)) {
        println!("{name}: nothing of the kind {missing}");
        return None;
    }
    let (seed, total) = (options.seed, seen.total);
    Some(format!(
        "{name}: seed {seed}, {lists} lists, {total} commands, no difference"
    ))
}
