//! Random lists of calls: each from an empty run or one handed in, each call given what the last one left. Most are short.

use super::book::{Book, MINUTE};
use super::call::{Call, Verdicts};
use super::layout::{encode, Verdict, ENTRY_SIZE};
use crate::dialogs::records;
use crate::random::Random;
use crate::store::entries::{self, SWAPPED};
use crate::store::kind::Damage;
use crate::store::lists::List;
use crate::store::run::Run;

/// One random list; one in four begins with a run handed in. One in twelve calls is on damaged bytes.
pub fn list(run: &mut Run<Verdicts>, random: &mut Random) {
    let used = if random.one_in(4) {
        encode(&some_run(random))
    } else {
        Vec::new()
    };
    let calls = 1 + random.pick(&[4, 8, 8, 12, 12, 40]);
    let mut list = List::new(run, random, &used, [0, 0]);
    for _ in 0..1 + list.random.below(calls) {
        if list.random.one_in(12) {
            let damaged = damaged(list.random, list.sides.book());
            let call = make(list.random, list.sides.book());
            list.interrupt(&call, damaged);
        }
        let call = make(list.random, list.sides.book());
        if !list.each(&[call]) {
            return;
        }
    }
    list.each_roomy(&[Call::Worst]);
}

/// A run of up to nine verdicts.
fn some_run(random: &mut Random) -> Vec<Verdict> {
    let mut book = Book { given: Vec::new() };
    for _ in 0..random.below(10) {
        let verdict = (time(random, &book), number(random));
        book.given.push(verdict);
    }
    book.counted()
}

/// A random call: mostly a verdict.
pub fn make(random: &mut Random, book: &Book) -> Call {
    if random.one_in(4) {
        return Call::Worst;
    }
    Call::Add {
        time: time(random, book),
        number: number(random),
    }
}

/// A verdict's number: half of them are refusals.
pub fn number(random: &mut Random) -> u8 {
    match random.below(8) {
        0..4 => 0,
        4 => u8::MAX,
        _ => 1 + random.below(28) as u8,
    }
}

/// A time: equal to one that was given, around 60 s after one, a little on, back, or at an end of the scale.
pub fn time(random: &mut Random, book: &Book) -> u64 {
    let last = book.given.last().map_or(0, |(time, _)| *time);
    let any = match book.given.len() {
        0 => 0,
        many => book.given[random.below(many)].0,
    };
    match random.below(16) {
        0..2 => any,
        2..5 => any.saturating_add(MINUTE - 1 + random.below(3) as u64),
        5..10 => last.saturating_add(random.below(40) as u64 * 1_000_000_000),
        10 => last,
        11 => last.saturating_sub(random.below(70) as u64 * 1_000_000_000),
        12 => last.saturating_add(1),
        13 if random.one_in(8) => u64::MAX - random.pick(&[0, 0, 1, MINUTE - 1, MINUTE, MINUTE + 1]),
        14 if random.one_in(4) => 0,
        15 if random.one_in(8) => random.next() >> random.below(64),
        _ => last.saturating_add(random.below(100) as u64),
    }
}

/// The used bytes of the book's run, damaged once. They may be a run still: a changed byte can give another one.
fn damaged(random: &mut Random, book: &Book) -> (Damage, Vec<u8>) {
    let run = book.counted();
    let pairs = run.windows(2).filter(|pair| pair[0].0 < pair[1].0).count();
    if pairs > 0 && random.one_in(2) {
        return (SWAPPED, encode(&fallen(random, &run)));
    }
    match run.is_empty() {
        true => (records::LONGER, vec![random.next() as u8]),
        false => records::broken(random, &encode(&run)),
    }
}

/// The run with two neighbours of different times swapped.
fn fallen(random: &mut Random, run: &[Verdict]) -> Vec<Verdict> {
    let places: Vec<usize> = (1..run.len()).filter(|at| run[at - 1].0 < run[*at].0).collect();
    let at = places[random.below(places.len())];
    let mut run = run.to_vec();
    run.swap(at - 1, at);
    run
}

/// A run of three verdicts, two of them the example of docs/LAYOUTS.md.
fn three() -> [Verdict; 3] {
    let run = [(MINUTE, 0), (MINUTE, 11), (2 * MINUTE + 1, 255)];
    let bytes = encode(&run);
    assert!(
        bytes[..2 * ENTRY_SIZE] == *b"\0\0\0\x0d\xf8\x47\x58\0\0\0\0\0\x0d\xf8\x47\x58\0\x0b",
        "the example's bytes"
    );
    run
}

/// Both operations on every run that one of three verdicts becomes by any byte in any one place, by an end cut off, by any byte
/// behind it, or by two verdicts swapped.
pub fn each_broken(run: &mut Run<Verdicts>, random: &mut Random) {
    let verdicts = three();
    let damages = |random: &mut Random, give: &mut dyn FnMut(Damage, &[u8])| {
        for _ in 0..TIMES {
            give(SWAPPED, &encode(&fallen(random, &verdicts)));
        }
    };
    entries::each_broken(run, random, &encode(&verdicts), damages, |random, _| {
        let book = Book {
            given: verdicts.to_vec(),
        };
        let add = Call::Add {
            time: time(random, &book),
            number: number(random),
        };
        vec![add, Call::Worst]
    });
}

/// How often each damage to the entries is gone through.
const TIMES: usize = 30;
