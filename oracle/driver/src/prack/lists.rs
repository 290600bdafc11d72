//! Random lists of calls: each from an empty store or one handed in, each call given what the last one left.

use super::call::{Action, Call, Pracks};
use super::calls::{self, Pool};
use super::damage::{damaged, each_of_entries};
use super::layout::{decode, encode, Entry, Response, MOST};
use super::steps::LONG;
use crate::random::Random;
use crate::store::entries;
use crate::store::kind::Damage;
use crate::store::lists::List;
use crate::store::run::Run;

/// One random list; one in four begins with a store handed in.
pub fn list(run: &mut Run<Pracks>, random: &mut Random) {
    let pool = Pool::new(random);
    let used = if random.one_in(4) {
        pool.store(random, run.site)
    } else {
        Vec::new()
    };
    let list = List::new(run, random, &used, [0, 0]);
    list.go_through(|random, book| calls::make(random, &pool, book), damaged);
}

/// A store of three entries: with a list of two, with none, and the example of docs/LAYOUTS.md.
pub fn three() -> [Entry; 3] {
    let response = |rseq, acknowledged| Response {
        rseq,
        cseq: 1,
        method: 1,
        code: 180,
        acknowledged,
        registered_at: LONG,
    };
    let entry = |id: &[u8], list| Entry {
        id: id.to_vec(),
        cleaned_at: LONG,
        list,
    };
    let entries = [
        entry(b"", Some(vec![response(1, true), response(2, false)])),
        entry(b"a", None),
        entry(b"d", Some(vec![response(1, false)])),
    ];
    let bytes = encode(&entries);
    assert!(
        bytes[64..]
            == *b"\0\x01d\0\0\0\x45\xd9\x64\xb8\0\x01\x01\0\0\0\x01\0\0\0\x01\x01\0\xb4\0\0\0\0\x45\xd9\x64\xb8\0",
        "the example's bytes"
    );
    assert!(decode(&bytes, MOST).is_some(), "a store");
    entries
}

/// A call of each operation for a text, with a PRACK of RSeq 1.
pub fn all(id: &[u8], time: u64) -> [Call; 6] {
    let of = |action| Call {
        id: id.to_vec(),
        action,
    };
    [
        of(Action::Register {
            rseq: 1,
            cseq: 1,
            method: 1,
            code: 180,
            time,
        }),
        of(Action::Validate {
            block: b"RAck:1 1 INVITE\r\n".to_vec(),
            time,
        }),
        of(Action::IsPracked { rseq: 1 }),
        of(Action::GetPending { time, room: 60 }),
        of(Action::RemoveDialog),
        of(Action::RemovePracked { rseq: 1 }),
    ]
}

/// Every operation on every store that one of three entries becomes by any byte in any one place, by an end cut off, by any
/// byte behind it, and by every damage to its entries.
pub fn each_broken(run: &mut Run<Pracks>, random: &mut Random) {
    let entries = three();
    let most = run.site.pending as usize;
    let damages = |random: &mut Random, give: &mut dyn FnMut(Damage, &[u8])| {
        for _ in 0..TIMES {
            each_of_entries(&entries, most, random, give);
        }
    };
    entries::each_broken(run, random, &encode(&entries), damages, |random, turn| {
        let time = LONG + random.pick(&[0, LONG, LONG + 1]);
        all(&entries[turn % entries.len()].id, time).to_vec()
    });
}

/// How often each damage to the entries is gone through.
const TIMES: usize = 20;
