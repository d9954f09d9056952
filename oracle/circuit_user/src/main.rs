//! The wrapper's module `circuit` beside the six files; see ../README.md.
//!
//! The program of `examples/circuit.rs` is compiled against both, and must print the same, which is `examples/circuit.out`.
//! Then random lists of calls are played on both, by a text that is compiled against both too.

/// Makes something of a width that is only known when the program runs.
macro_rules! at_width {
    ($width:expr, $W:ident => $made:expr) => {
        at_number!($width, $W => $made;
            1 2 3 4 5 6 7 8 9 10 11 12 13 14 15 16 17 18 19 20 21 22 23 24)
    };
}

/// The same of the length of an array.
macro_rules! at_length {
    ($length:expr, $N:ident => $made:expr) => {
        at_number!($length, $N => $made; 0 1 2 3 5 8 24)
    };
}

macro_rules! at_number {
    ($given:expr, $N:ident => $made:expr; $($number:literal)*) => {
        match $given {
            $($number => {
                const $N: usize = $number;
                $made
            })*
            other => unreachable!("no number {other}"),
        }
    };
}

mod calls;
mod counts;
mod files;
mod plan;
#[allow(dead_code)] // the driver's, which uses all of it
#[path = "../../driver/src/rng.rs"]
mod rng;
mod run;
mod six_files;
mod times;

/// The texts over `sfr::circuit`.
mod owned {
    include!(concat!(env!("OUT_DIR"), "/owned.rs"));
}

/// The texts over the six files.
mod source {
    include!(concat!(env!("OUT_DIR"), "/source.rs"));
}

use std::{
    env,
    error::Error,
    io::Write,
    panic::{self, AssertUnwindSafe},
    process::{self, ExitCode},
    time::SystemTime,
};

/// What both sides' program is to print.
const STORED: &str = include_str!("../../../examples/circuit.out");

/// The program of a side, which writes what it finds.
type Program = fn(&mut dyn Write) -> Result<(), Box<dyn Error>>;

const SIDES: [(&str, Program); 2] = [
    ("the six files", source::program::run),
    ("the module", owned::program::run),
];

/// Whether the program prints what is stored, on both sides.
fn program() -> bool {
    for (side, program) in SIDES {
        let mut printed = Vec::new();
        let ended = panic::catch_unwind(AssertUnwindSafe(|| program(&mut printed)));
        let ended = match ended {
            Ok(Ok(())) if printed == STORED.as_bytes() => continue,
            Ok(Ok(())) => "prints otherwise than stored".to_string(),
            Ok(Err(error)) => format!("ends with: {error}"),
            Err(_) => "panics".to_string(),
        };
        let printed = String::from_utf8_lossy(&printed);
        println!("over {side}, examples/circuit.rs {ended}\n{printed}");
        return false;
    }
    println!("circuit: over both, examples/circuit.rs prints what is stored");
    true
}

/// What is asked for: times or not, the seed and the count.
fn options() -> Option<(bool, u64, u64)> {
    let clock = SystemTime::now().duration_since(SystemTime::UNIX_EPOCH);
    let clock = clock.map_or(0, |since| since.as_nanos() as u64 % 1_000_000_000);
    let (mut times, mut seed, mut count) = (false, clock, 200_000);
    let mut arguments = env::args().skip(1);
    while let Some(argument) = arguments.next() {
        let mut number = || arguments.next()?.parse().ok();
        match argument.as_str() {
            "times" => times = true,
            "--seed" => seed = number()?,
            "--count" => count = number()?,
            _ => return None,
        }
    }
    Some((times, seed, count))
}

fn main() -> ExitCode {
    let Some((times, seed, count)) = options() else {
        eprintln!("usage: circuit_user [times] [--seed N] [--count N]");
        process::exit(2)
    };
    if times {
        times::run();
        return ExitCode::SUCCESS;
    }
    eprintln!("seed {seed}");
    let (printed, played) = (program(), run::run(seed, count));
    if printed && played {
        ExitCode::SUCCESS
    } else {
        ExitCode::FAILURE
    }
}
