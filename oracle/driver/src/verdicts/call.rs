//! The calls on a run of verdicts, what they must answer, and what the tables say of them.

use super::book::{refusals_from, worst, Book, MINUTE};
use super::layout::Verdict;
use crate::answer::lent_as;
use crate::bounds;
use crate::run::Entry;
use crate::store::call::entry;
use crate::store::expect::store_read;
use crate::store::kind::{Damage, Kind};
use crate::store::memory::Left;
use port::Settings;

pub const ADD: &str = "add_verdict";
pub const WORST: &str = "worst_minute";

/// A call's own arguments.
#[derive(Debug, Clone, Copy)]
pub enum Call {
    Add { time: u64, number: u8 },
    Worst,
}

/// The run of verdicts.
pub struct Verdicts;

impl Kind for Verdicts {
    type Call = Call;
    type Book = Book;

    const OPERATIONS: &'static [Entry] = &[
        entry(ADD, "the run's own count, by request 10", &[0, 3, 18]),
        entry(WORST, "the run's own count, by request 10", &[0, 3]),
    ];

    fn name(call: &Call) -> &'static str {
        match call {
            Call::Add { .. } => ADD,
            Call::Worst => WORST,
        }
    }

    fn texts(_: &Call) -> Vec<(&'static str, &[u8])> {
        Vec::new()
    }

    fn arguments(call: &Call) -> Vec<String> {
        match call {
            Call::Add { time, number } => vec![format!("time {time}"), format!("number {number}")],
            Call::Worst => Vec::new(),
        }
    }

    fn widest(_: &Call) -> [u64; 3] {
        [u64::MAX, u64::from(u8::MAX), u64::MAX]
    }

    fn book(bytes: &[u8], _: [u64; 2], _: Settings) -> Option<Book> {
        Book::of_bytes(bytes)
    }

    fn used(book: &Book) -> usize {
        book.used()
    }

    fn used_after(book: &Book, call: &Call) -> usize {
        match call {
            Call::Add { .. } => book.used_with_one_more(),
            Call::Worst => book.used(),
        }
    }

    fn expect(book: &mut Result<Book, Damage>, call: &Call, lent: usize, left: &mut Left) {
        left.number = match answer(book, call, lent, left) {
            Ok(()) => 0,
            Err(number) => number,
        };
    }

    fn ask(call: &Call, lent: usize, left: &mut Left) {
        let run = left.store.lend(lent);
        let [refusals, found, start] = &mut left.outs;
        left.number = match call {
            Call::Add { time, number } => port::verdicts::add(*time, *number, run),
            Call::Worst => lent_as(refusals, |refusals| {
                lent_as(found, |found| {
                    port::verdicts::worst_minute(run.bytes, *run.used, refusals, found, start)
                })
            }),
        };
    }
}

/// 3, then 18, then what the request asks for.
fn answer(book: &mut Result<Book, Damage>, call: &Call, lent: usize, left: &mut Left) -> Result<(), u8> {
    let name = Verdicts::name(call);
    let book = store_read(book, name, left.store.used, lent)?;
    let run = book.counted();
    bounds::number(name, "verdicts", run.len());
    match call {
        Call::Add { time, number } => {
            bounds::room(name, book.used_with_one_more(), lent);
            if book.used_with_one_more() > lent {
                return Err(18);
            }
            meet_added(&run, *time);
            book.given.push((*time, *number));
            left.store.write(&book.bytes());
        }
        Call::Worst => {
            let worst = worst(&run);
            meet_worst(&run, worst);
            left.outs = match worst {
                Some((refusals, start)) => [refusals as u64, 1, start],
                None => [0, 0, left.outs[2]],
            };
        }
    }
    Ok(())
}

/// Says how the time of a new verdict compares with the last one.
fn meet_added(run: &[Verdict], time: u64) {
    bounds::number(ADD, "time", time);
    if let Some((last, _)) = run.last() {
        let side = match time.cmp(last) {
            std::cmp::Ordering::Less => "below the last one",
            std::cmp::Ordering::Equal => "the last one",
            std::cmp::Ordering::Greater => "above it",
        };
        bounds::met(ADD, "time and the last one", side);
    }
}

/// Says how many starts have the most refusals, what stands at the earliest, and how the first refusal behind its minute lies to the end.
fn meet_worst(run: &[Verdict], worst: Option<(usize, u64)>) {
    let Some((most, start)) = worst else {
        return;
    };
    if run.len() > 100 {
        return;
    }
    let mut starts: Vec<u64> = run.iter().map(|(time, _)| *time).collect();
    starts.dedup();
    starts.retain(|start| refusals_from(run, *start) == most);
    let many = if starts.len() > 1 { "several" } else { "one" };
    bounds::met(WORST, "starts that have the most", many);
    let refused = run.iter().any(|(time, number)| *time == start && *number != 0);
    let side = match (most, refused) {
        (0, _) => "no refusal at all",
        (_, false) => "at an accepted verdict",
        (_, true) => "at a refusal",
    };
    bounds::met(WORST, "the start", side);
    for (time, number) in run {
        if *number != 0 && *time >= start {
            bounds::number(WORST, "from the start to a refusal", (time - start).min(MINUTE + 1));
        }
    }
}
