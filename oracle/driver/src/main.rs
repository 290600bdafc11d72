//! The differential run: every operation of the Rattle port against the Rust, or against a stand-in written from
//! document 01 where the Rust has no such function.
//!
//!     driver all [--calls N] [--seed S]        compares everything, N calls in all; prints the table, fails on any difference
//!     driver leaves [--calls N] [--seed S]     the same for the readings of blocks, values, texts and numbers alone
//!     driver dialogs [--calls N] [--seed S]    the same for creations, changes and readings of one record, and the listing
//!     driver store [--calls N] [--seed S]      the same for N lists of calls on a store of records
//!     driver rseq [--calls N] [--seed S]       the same for N lists of calls on an RSeq store
//!     driver prack [--calls N] [--seed S]      the same for N lists of calls on a PRACK store
//!     driver verdicts [--calls N] [--seed S]   the same for N lists of calls on a run of verdicts, against the run's own count
//!     driver settings [--calls N] [--seed S]   the same for other settings than the Rust's, against the run's own rules
//!     driver planted [--calls N] [--seed S]    plants faults, fails if any goes unreported or if a C function has none
//!     driver differences                       runs the inputs of docs/DIFFERENCES.md on both sides, fails if an answer is another
//!     driver record                            writes the list of recorded answers that the program replay runs
//!     driver bench                             times both sides
//!     driver calls                             names the calls on stores that `bench` times
//!     driver call TABLE SIZE SIDE              makes one of them, for callgrind

mod all;
mod answer;
mod bench;
mod blocks;
mod bounds;
mod contest;
mod dialogs;
mod differences;
mod messages;
mod misreadings;
mod mixed;
mod operations;
mod places;
mod prack;
mod progress;
mod random;
mod record;
mod report;
mod rseq;
mod rules;
mod run;
mod settings;
mod store;
mod tags;
mod texts;
mod uris;
mod verdicts;

use std::process::ExitCode;

const USAGE: &str =
    "use: driver all|leaves|dialogs|store|rseq|prack|verdicts|settings|planted [--calls N] [--seed S], driver differences|bench|record";

/// How many calls (or lists of calls) where --calls doesn't say it, and how many in all for `all`.
const CALLS: usize = 20_000;
const ALL_CALLS: u64 = 10_000_000;

/// What the command line asks for.
struct Options {
    command: String,
    calls: Option<usize>,
    seed: u64,
}

/// Runs the command; exit 0 where all is well, 1 where it is not, 2 for bad usage.
fn main() -> ExitCode {
    let words: Vec<String> = std::env::args().skip(1).collect();
    if let [command, call @ ..] = &words[..] {
        if let ("call", Ok(call)) = (command.as_str(), <[String; 3]>::try_from(call.to_vec())) {
            return ExitCode::from(u8::from(!bench::one(call)));
        }
    }
    let Some(options) = options(words.into_iter()) else {
        eprintln!("{USAGE}");
        return ExitCode::from(2);
    };
    let calls = options.calls.unwrap_or(CALLS);
    let good = match options.command.as_str() {
        "all" => report::all(options.calls.map_or(ALL_CALLS, |calls| calls as u64), options.seed),
        "leaves" => report::leaves(calls, options.seed),
        "dialogs" => report::dialogs(calls, options.seed),
        "store" => report::store(calls, options.seed),
        "rseq" => report::rseq(calls, options.seed),
        "prack" => report::prack(calls, options.seed),
        "verdicts" => report::verdicts(calls, options.seed),
        "settings" => report::settings(calls, options.seed),
        "planted" => report::planted(calls, options.seed),
        "differences" => differences::run(),
        "record" => record::run(),
        "bench" => bench::run(),
        "calls" => bench::names(),
        _ => {
            eprintln!("{USAGE}");
            return ExitCode::from(2);
        }
    };
    ExitCode::from(u8::from(!good))
}

/// Reads the command line; nothing where it is not of the form above.
fn options(mut words: impl Iterator<Item = String>) -> Option<Options> {
    let mut options = Options {
        command: words.next()?,
        calls: None,
        seed: 1,
    };
    while let Some(word) = words.next() {
        let number = words.next()?;
        match word.as_str() {
            "--calls" => options.calls = Some(number.parse().ok()?),
            "--seed" => options.seed = number.parse().ok()?,
            _ => return None,
        }
    }
    Some(options)
}
