//! The command line.

use std::{env, process, time::SystemTime};

pub struct Options {
    pub command: String,
    pub seed: u64,
    /// Each command has a count of its own where none is given.
    pub count: Option<u64>,
}

const USAGE: &str = "usage: driver COMMAND [--seed N] [--count N]";

impl Options {
    /// The options of this run, `commands` being those that this build has.
    pub fn parse(commands: &[&str]) -> Self {
        let mut arguments = env::args().skip(1);
        let mut command = None;
        let (mut seed, mut count) = (None, None);
        while let Some(argument) = arguments.next() {
            let place = match argument.as_str() {
                "--seed" => &mut seed,
                "--count" => &mut count,
                name if command.is_none() && commands.contains(&name) => {
                    command = Some(argument);
                    continue;
                }
                _ => refuse(commands),
            };
            match arguments.next().map(|number| number.parse()) {
                Some(Ok(number)) => *place = Some(number),
                _ => refuse(commands),
            }
        }
        Self {
            command: command.unwrap_or_else(|| refuse(commands)),
            seed: seed.unwrap_or_else(seed_of_the_clock),
            count,
        }
    }
}

fn refuse(commands: &[&str]) -> ! {
    eprintln!("{USAGE}\nwhere COMMAND is one of: {}", commands.join(" "));
    process::exit(2)
}

fn seed_of_the_clock() -> u64 {
    let since = SystemTime::now().duration_since(SystemTime::UNIX_EPOCH);
    since.map_or(0, |since| since.as_nanos() as u64 % 1_000_000_000)
}
