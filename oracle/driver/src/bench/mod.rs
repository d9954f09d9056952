//! `bench`: the proved library and the compiled sources on the same inputs, timed in one
//! program. Inputs are made before the clock starts and answers are used; what a call gives
//! is dropped after the clock has stopped. `--count N` is the largest number of items
//! (10^6 without it).

mod evaluate;
mod forms;
mod input;
mod inverse;
mod labels;
mod recording;
mod shared;
mod tickets;
mod withdraw;

use std::{env, fs, hint::black_box, time::Duration};

use crate::options::Options;

/// Items, from a thousand on.
const FIRST: usize = 1_000;
const LAST: usize = 1_000_000;

/// A call is run for so many nanoseconds, at least so often, and at most so often.
const LONG: f64 = 3e8;
const OFTEN: usize = 5;
const MOST_OFTEN: usize = 1_000;

/// The time that this thread has been run, so that other programs' turns don't count.
fn thread_time() -> Duration {
    #[repr(C)]
    struct Time {
        seconds: i64,
        nanoseconds: i64,
    }
    unsafe extern "C" {
        fn clock_gettime(clock: i32, time: *mut Time) -> i32;
    }
    const THREAD_CPUTIME: i32 = 3;
    let mut time = Time {
        seconds: 0,
        nanoseconds: 0,
    };
    // SAFETY: the C library's function on 64-bit Linux, which fills the time lent to it.
    let failed = unsafe { clock_gettime(THREAD_CPUTIME, &mut time) };
    assert_eq!(failed, 0, "no clock of this thread");
    Duration::new(time.seconds as u64, time.nanoseconds as u32)
}

/// One run of a call, answered by its time.
type Run<'a> = Box<dyn FnMut() -> f64 + 'a>;

/// One run of a call, and its time in nanoseconds. Neither `prepare` nor the dropping of an
/// answer is timed.
fn timed<'a, P, T>(
    mut prepare: impl FnMut() -> P + 'a,
    mut call: impl FnMut(&mut P) -> T + 'a,
) -> Run<'a> {
    Box::new(move || {
        let mut prepared = prepare();
        let start = thread_time();
        let answer = black_box(call(black_box(&mut prepared)));
        let took = thread_time() - start;
        drop(answer);
        took.as_secs_f64() * 1e9
    })
}

/// The best time of each, run in turns, so that the machine's good and bad moments are shared.
fn best<const N: usize>(mut runs: [Run; N]) -> [f64; N] {
    let mut best = [f64::MAX; N];
    let (mut spent, mut often) = (0.0, 0);
    while often < OFTEN || (spent < N as f64 * LONG && often < MOST_OFTEN) {
        for (run, best) in runs.iter_mut().zip(&mut best) {
            let took = run();
            *best = best.min(took);
            spent += took;
        }
        often += 1;
    }
    best
}

/// One line of a table: both sides' times for so many items, and the bytes that they go over.
struct Line {
    items: usize,
    bytes: usize,
    library: f64,
    source: f64,
}

/// What was timed for a tenth of the items.
struct Before {
    library: f64,
    source: f64,
    copy: f64,
}

/// The time of a plain copy of so many bytes.
fn copy(bytes: usize) -> f64 {
    let from = vec![1u8; bytes];
    let mut to = vec![0u8; bytes];
    let copy = timed(
        || (),
        |()| black_box(&mut to).copy_from_slice(black_box(&from)),
    );
    let [copy] = best([copy]);
    copy
}

fn loads() -> String {
    let loads = fs::read_to_string("/proc/loadavg").unwrap_or_default();
    loads.split(' ').take(3).collect::<Vec<_>>().join(" ")
}

/// Whether a table is asked for: `SFR_BENCH` is part of its name, or not set.
fn asked_for(table: &str) -> bool {
    env::var("SFR_BENCH").map_or(true, |part| table.contains(&part))
}

/// A call's table, one line for each number of items up to `last`.
fn table(call: &str, note: &str, last: usize, mut line: impl FnMut(usize) -> Line) {
    if !asked_for(call) {
        return;
    }
    println!("\n### {call}\n\n{note}\n");
    println!(
        "| items | library ns/item | source ns/item | source/library | growth library | growth source | growth copy | \
         library GB/s | copy GB/s |"
    );
    println!("|---:|---:|---:|---:|---:|---:|---:|---:|---:|");
    let mut before: Option<Before> = None;
    let mut items = FIRST;
    while items <= last {
        let line = line(items);
        let copy = copy(line.bytes);
        let per_item = |time: f64| time / line.items as f64;
        let growth = |now: f64, then: fn(&Before) -> f64| match &before {
            None => String::new(),
            Some(before) => format!("{:.1}", now / then(before)),
        };
        let rate = |time: f64| line.bytes as f64 / time;
        println!(
            "| {} | {:.1} | {:.1} | {:.2} | {} | {} | {} | {:.2} | {:.2} |",
            line.items,
            per_item(line.library),
            per_item(line.source),
            line.source / line.library,
            growth(line.library, |before| before.library),
            growth(line.source, |before| before.source),
            growth(copy, |before| before.copy),
            rate(line.library),
            rate(copy),
        );
        before = Some(Before {
            library: line.library,
            source: line.source,
            copy,
        });
        items *= 10;
    }
}

pub fn run(options: &Options) -> bool {
    let last = options.count.map_or(LAST, |count| count as usize);
    println!("## The proved library beside the compiled sources\n");
    println!(
        "Processor time of the one thread, best of at least {OFTEN} runs in turns; width {} where no other is named; load {} at the start.",
        input::WIDTH,
        loads()
    );
    println!(
        "Growth is the time beside that of a tenth of the items: 10 is linear. GB/s are those of the bytes that a \
         call goes over, beside a plain copy of as many."
    );
    println!(
        "Stores and bytes lent to the library hold the last run's words: the caller clears none of them. Reads and \
         gate clear their stores, and gate, read and check their scratch, within the time. They are just as long as \
         what they take."
    );
    println!(
        "The sources allocate what they give back, within the time; dropping it is not timed. Both sides are given \
         one label, of {} bytes.",
        input::LABEL.len()
    );
    input::tables(last);
    tickets::tables(last);
    recording::tables(last);
    withdraw::tables(last);
    shared::tables(last);
    if asked_for("labels") {
        labels::tables(last);
    }
    if asked_for("evaluate") {
        evaluate::tables(last);
    }
    if asked_for("inverse") {
        inverse::tables();
    }
    println!("\nload {} at the end", loads());
    true
}
