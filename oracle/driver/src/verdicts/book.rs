//! What a run must hold and answer, counted anew each time from all verdicts that were given, by the request's words.

use super::layout::{decode, encode, Verdict, ENTRY_SIZE, MOST};
use std::cmp::Reverse;

/// 60 s in nanoseconds.
pub const MINUTE: u64 = 60_000_000_000;

/// Every verdict that was given and taken, with its time as it was given. Of a run handed in: its own.
pub struct Book {
    pub given: Vec<Verdict>,
}

impl Book {
    /// The book of a run handed in; nothing where the bytes aren't one.
    pub fn of_bytes(bytes: &[u8]) -> Option<Book> {
        Some(Book { given: decode(bytes)? })
    }

    /// What counts: a time below the one before it is taken as that one; then the last 4,096.
    pub fn counted(&self) -> Vec<Verdict> {
        last_ones(&taken(&self.given))
    }

    /// The run's used bytes, and how many they are.
    pub fn bytes(&self) -> Vec<u8> {
        encode(&self.counted())
    }

    pub fn used(&self) -> usize {
        self.given.len().min(MOST) * ENTRY_SIZE
    }

    /// How many they would be with one verdict more, were there room.
    pub fn used_with_one_more(&self) -> usize {
        (self.given.len() + 1).min(MOST) * ENTRY_SIZE
    }
}

/// "A time below the one before it is taken as that one, and keeps the value so taken."
pub fn taken(given: &[Verdict]) -> Vec<Verdict> {
    let mut last = 0;
    let take = |&(time, number): &Verdict| {
        last = time.max(last);
        (last, number)
    };
    given.iter().map(take).collect()
}

/// "Of a longer one the last 4,096 count."
pub fn last_ones(verdicts: &[Verdict]) -> Vec<Verdict> {
    verdicts[verdicts.len().saturating_sub(MOST)..].to_vec()
}

/// How many refusals lie in the 60 s from a start on: the start included, the end excluded.
pub fn refusals_from(run: &[Verdict], start: u64) -> usize {
    let within = |time: u64| time >= start && time - start < MINUTE;
    run.iter()
        .filter(|(time, number)| within(*time) && *number != 0)
        .count()
}

/// The most refusals in 60 s that start at a verdict, and the earliest start that has them; nothing for an empty run. Every start is
/// tried against every verdict.
pub fn worst(run: &[Verdict]) -> Option<(usize, u64)> {
    let tried = run.iter().map(|(start, _)| (refusals_from(run, *start), *start));
    tried.max_by_key(|(refusals, start)| (*refusals, Reverse(*start)))
}
