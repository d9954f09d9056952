//! Compares source, second reading and proved library; see README.md.

mod against_source;
mod astray;
#[cfg(feature = "library")]
mod bench;
mod calls;
mod compared;
#[cfg(test)]
mod differences;
mod generate;
mod held;
mod leaf;
#[cfg(feature = "library")]
mod library;
mod lists;
mod options;
mod plant;
mod rng;
mod sample;
mod sheets;
mod tickets;
#[cfg(feature = "library")]
mod unsound;
mod zero_wire;

use std::process::ExitCode;

use options::Options;

/// A command, and whether everything it compared agreed.
type Command = (&'static str, fn(&Options) -> bool);

/// The commands of this build.
const COMMANDS: &[Command] = &[
    ("self", against_source::run),
    ("sample", sample::run),
    #[cfg(feature = "library")]
    ("leaves", library::leaves::run),
    #[cfg(feature = "library")]
    ("relation", library::relation::run),
    #[cfg(feature = "library")]
    ("tickets", library::tickets::run),
    #[cfg(feature = "library")]
    ("shared", library::shared::run),
    #[cfg(feature = "library")]
    ("witness", library::witness::run),
    #[cfg(feature = "library")]
    ("inverse", library::inverse::run),
    #[cfg(feature = "library")]
    ("instance", library::instance::run),
    #[cfg(feature = "library")]
    ("check", library::check::run),
    #[cfg(feature = "library")]
    ("whole", library::whole::run),
    #[cfg(feature = "library")]
    ("large", library::large_held::run),
    #[cfg(feature = "library")]
    ("terms", library::terms::run),
    #[cfg(feature = "library")]
    ("bench", bench::run),
];

fn main() -> ExitCode {
    let names: Vec<&str> = COMMANDS.iter().map(|(name, _)| *name).collect();
    let options = Options::parse(&names);
    eprintln!("seed {}", options.seed);
    let command = COMMANDS.iter().find(|(name, _)| *name == options.command);
    let (_, run) = command.expect("the options name one of them");
    if run(&options) {
        ExitCode::SUCCESS
    } else {
        ExitCode::FAILURE
    }
}
