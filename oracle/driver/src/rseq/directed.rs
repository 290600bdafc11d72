//! Lists for the order of identifiers, for the numbers at the bounds, for several histories of one content, and for texts that a
//! call can't be given.

use super::call::{Call, RSeqs};
use super::calls::{self, FIRSTS, NUMBERS, TEXTS};
use super::layout::{encode, Entry};
use super::lists::id;
use crate::random::Random;
use crate::rules::LONGEST;
use crate::store::call::Id;
use crate::store::lists::List;
use crate::store::run::Run;
use crate::texts::each_choice;

/// Each two identifiers of a few short texts, in both orders: those that begin with each other, and those that are the same
/// bytes with other boundaries.
pub fn each_pair(run: &mut Run<RSeqs>, random: &mut Random) {
    let ids: Vec<Id> = short_ids();
    for first in &ids {
        for second in &ids {
            let calls = [
                Call::IsEmpty,
                next(first, calls::n(random)),
                next(second, calls::n(random)),
                Call::Current(first.clone()),
                Call::Current(second.clone()),
                Call::Len,
                Call::Remove(first.clone()),
                Call::Current(second.clone()),
                Call::Current(first.clone()),
                Call::Remove(second.clone()),
                Call::IsEmpty,
            ];
            List::new(run, random, &[], [0, 0]).each_roomy(&calls);
        }
    }
}

/// The identifiers of four texts.
fn short_ids() -> Vec<Id> {
    let texts = &TEXTS[..4];
    let mut ids = Vec::new();
    each_choice(&[texts.len(); 3], &mut |choice| {
        ids.push(id([0, 1, 2].map(|part| texts[choice[part]])))
    });
    ids
}

/// A next of an identifier.
fn next(id: &Id, n: u32) -> Call {
    Call::Next { id: id.clone(), n }
}

/// How often each list is gone through.
const TIMES: usize = 30;

/// Every n for a new identifier and for a held one; every number held.
pub fn each_number(run: &mut Run<RSeqs>, random: &mut Random) {
    let held = id([b"c1", b"L", b""]);
    for n in FIRSTS.repeat(TIMES) {
        let other = calls::n(random);
        let calls = [
            next(&held, n),
            Call::Current(held.clone()),
            next(&held, other),
            next(&held, n),
        ];
        List::new(run, random, &[], [0, 0]).each_roomy(&calls);
        for number in NUMBERS {
            let store = encode(&[(held.clone(), number)]);
            let calls = [
                Call::Current(held.clone()),
                next(&held, n),
                next(&held, other),
                next(&held, 0),
                Call::Current(held.clone()),
                Call::Remove(held.clone()),
                next(&held, n),
            ];
            List::new(run, random, &store, [0, 0]).each(&calls);
        }
    }
}

/// So many entries are put in.
const MANY: usize = 100;

/// Three histories of one content: the identifiers in any order, others put in and removed in between, each number by one call
/// or by several. After each call the store is held against the one image of its content, as everywhere.
pub fn each_history(run: &mut Run<RSeqs>, random: &mut Random) {
    for _ in 0..TIMES {
        let ids: Vec<Id> = (0..MANY).map(|at| many_id(random, at)).collect();
        let firsts: Vec<u32> = ids.iter().map(|_| 3 + random.below(1 << 30) as u32).collect();
        for _ in 0..3 {
            let calls = history(random, &ids, &firsts);
            List::new(run, random, &[], [0, 0]).each_roomy(&calls);
        }
    }
}

/// The `at`th identifier: no two are the same.
fn many_id(random: &mut Random, at: usize) -> Id {
    let mut id = [0; 3].map(|_| random.pick(&TEXTS).to_vec());
    id[random.below(3)].extend([b'!', at as u8]);
    id[2].push(at as u8);
    id
}

/// Calls after which these identifiers and no others are held, with these numbers.
fn history(random: &mut Random, ids: &[Id], numbers: &[u32]) -> Vec<Call> {
    let mut rest: Vec<usize> = (0..ids.len()).collect();
    let mut calls = Vec::new();
    while !rest.is_empty() {
        let at = rest.swap_remove(random.below(rest.len()));
        if random.one_in(4) {
            calls.extend([next(&ids[at], 7), Call::Remove(ids[at].clone())]);
        }
        let raised = random.below(3) as u32;
        calls.push(next(&ids[at], numbers[at] - raised));
        calls.extend((0..raised).map(|_| next(&ids[at], 0)));
    }
    calls.extend([Call::Len, Call::IsEmpty]);
    calls
}

/// Stores handed in that hold a text over 8,192 bytes: they are read, and the other entries are changed.
pub fn each_long_text(run: &mut Run<RSeqs>, random: &mut Random) {
    for turn in 0..TIMES {
        let length = [LONGEST + 1, usize::from(u16::MAX)][turn % 2];
        let mut long = id([b"b", b"b", b"b"]);
        long[turn % 3] = vec![b'b'; length];
        let store: Vec<Entry> = vec![(id([b"a", b"", b""]), 5), (long.clone(), 6), (id([b"c", b"", b""]), 7)];
        let mut cut = long.clone();
        cut[turn % 3].truncate(LONGEST);
        let mut calls = Vec::new();
        for id in [&store[0].0, &store[2].0, &cut, &long] {
            let all = Call::all(id, calls::n(random));
            calls.extend([
                all[0].clone(),
                all[1].clone(),
                all[3].clone(),
                all[4].clone(),
                all[2].clone(),
            ]);
        }
        List::new(run, random, &encode(&store), [0, 0]).each_roomy(&calls);
    }
}
