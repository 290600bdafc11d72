//! Random lists of calls: each from an empty store or one handed in, each call given what the last one left.

use super::call::{Call, RSeqs};
use super::calls::{self, Pool};
use super::damage::{damaged, each_of_entries};
use super::layout::{decode, encode, Entry};
use crate::random::Random;
use crate::store::call::Id;
use crate::store::entries;
use crate::store::kind::Damage;
use crate::store::lists::List;
use crate::store::run::Run;

/// One random list; one in four begins with a store handed in.
pub fn list(run: &mut Run<RSeqs>, random: &mut Random) {
    let pool = Pool::new(random);
    let used = if random.one_in(4) {
        pool.store(random)
    } else {
        Vec::new()
    };
    let list = List::new(run, random, &used, [0, 0]);
    list.go_through(|random, book| calls::make(random, &pool, book), damaged);
}

/// An identifier of three texts.
pub fn id(texts: [&[u8]; 3]) -> Id {
    texts.map(<[u8]>::to_vec)
}

/// A store of three entries, one of them the example of docs/LAYOUTS.md.
pub fn three() -> [Entry; 3] {
    let entries = [
        (id([b"c", b"1L", b"x"]), u32::MAX),
        (id([b"c1", b"L", b""]), 1),
        (id([b"c1", b"L", b"\0"]), 0x0102_0304),
    ];
    let bytes = encode(&entries);
    assert!(
        bytes[14..27] == *b"\0\x02c1\0\x01L\0\0\0\0\0\x01",
        "the example's bytes"
    );
    assert!(decode(&bytes).is_some(), "a store");
    entries
}

/// Every operation on every store that one of three entries becomes by any byte in any one place, by an end cut off, by any
/// byte behind it, by two entries swapped, one of them twice, or a number 0.
pub fn each_broken(run: &mut Run<RSeqs>, random: &mut Random) {
    let entries = three();
    let damages = |random: &mut Random, give: &mut dyn FnMut(Damage, &[u8])| {
        for _ in 0..TIMES {
            each_of_entries(&entries, random, give);
        }
    };
    entries::each_broken(run, random, &encode(&entries), damages, |random, turn| {
        let n = calls::n(random);
        Call::all(&entries[turn % entries.len()].0, n).to_vec()
    });
}

/// How often each damage to the entries is gone through.
const TIMES: usize = 10;
