//! Calls to feed on an RSeq store: on its entries or on none, with any n.

use super::book::Book;
use super::call::Call;
use super::layout::{encode, Entry};
use crate::random::Random;
use crate::rules::LONGEST;
use crate::store::call::Id;
use crate::texts::{damage, near};
use std::collections::BTreeMap;

/// Texts that begin with each other, or whose order is that of neither their lengths nor their sums: the empty one, zero
/// bytes, bytes that are no UTF-8.
pub const TEXTS: [&[u8]; 14] = [
    b"",
    b"a",
    b"ab",
    b"b",
    b"a\0",
    b"aa",
    b"\0",
    b"\xff",
    b"a\xff",
    b"\x80",
    "é".as_bytes(),
    b"c1@h",
    b"abc",
    b"B",
];

/// The identifiers of a list's entries: few, so that they meet again.
pub struct Pool(Vec<Id>);

impl Pool {
    /// Up to twelve identifiers, at times sixty, of a few texts.
    pub fn new(random: &mut Random) -> Pool {
        let texts = [0; 4].map(|_| text(random));
        let one = |random: &mut Random| [0; 3].map(|_| texts[random.below(texts.len())].clone());
        let other = |random: &mut Random| [0; 3].map(|_| random.pick(&TEXTS).to_vec());
        let most = random.pick(&[2, 12, 12, 12, 12, 60]);
        let ids = (0..1 + random.below(most)).map(|_| if random.one_in(3) { other(random) } else { one(random) });
        Pool(ids.collect())
    }

    /// These.
    pub fn of(ids: impl Iterator<Item = Id>) -> Pool {
        Pool(ids.collect())
    }

    /// One of them.
    fn pick(&self, random: &mut Random) -> Id {
        self.0[random.below(self.0.len())].clone()
    }

    /// A store of some of them.
    pub fn store(&self, random: &mut Random) -> Vec<u8> {
        let some = self.0.iter().filter(|_| random.one_in(2));
        let ids: Vec<Id> = some.cloned().collect();
        let entries: BTreeMap<Id, u32> = ids.into_iter().map(|id| (id, number(random))).collect();
        encode(&entries.into_iter().collect::<Vec<Entry>>())
    }
}

/// A text: mostly short, at times of any bytes, as long as a length byte can say, or the longest.
fn text(random: &mut Random) -> Vec<u8> {
    match random.below(64) {
        0..4 => (0..random.below(4)).map(|_| random.next() as u8).collect(),
        4 => vec![random.pick(b"ax\0\xff"); near(random, 256)],
        5 if random.one_in(4) => vec![b'a'; LONGEST],
        _ => random.pick(&TEXTS).to_vec(),
    }
}

/// The numbers at which an entry's number could go wrong.
pub const NUMBERS: [u32; 9] = [
    1,
    2,
    0xff,
    (1 << 31) - 2,
    (1 << 31) - 1,
    1 << 31,
    u32::MAX - 2,
    u32::MAX - 1,
    u32::MAX,
];

/// An entry's number, mostly at a bound.
fn number(random: &mut Random) -> u32 {
    match random.below(4) {
        0 => (random.next() as u32).max(1),
        _ => random.pick(&NUMBERS),
    }
}

/// The n at which a first number could go wrong.
pub const FIRSTS: [u32; 8] = [
    0,
    1,
    (1 << 31) - 1,
    1 << 31,
    (1 << 31) + 1,
    (1 << 31) + 5,
    u32::MAX - 1,
    u32::MAX,
];

/// A caller's n, mostly at a bound.
pub fn n(random: &mut Random) -> u32 {
    match random.below(3) {
        0 => random.next() as u32,
        _ => random.pick(&FIRSTS),
    }
}

/// A random call; the fewer of the pool's entries the store has, the more new ones.
pub fn make(random: &mut Random, pool: &Pool, book: &Book) -> Call {
    if random.below(pool.0.len()) > 2 * book.entries.len() + 1 {
        let id = pool.pick(random);
        return Call::Next { id, n: n(random) };
    }
    match random.below(24) {
        0..10 => Call::Next {
            id: id(random, pool, book),
            n: n(random),
        },
        10..15 => Call::Current(id(random, pool, book)),
        15..20 => Call::Remove(id(random, pool, book)),
        20..22 => Call::Len,
        _ => Call::IsEmpty,
    }
}

/// The identifier of a held entry or one of the pool; at times nearly that, or with a part empty, at the limit, or of any
/// bytes.
fn id(random: &mut Random, pool: &Pool, book: &Book) -> Id {
    let mut id = if book.entries.is_empty() || random.one_in(2) {
        pool.pick(random)
    } else {
        book.entries[random.below(book.entries.len())].0.clone()
    };
    let part = random.below(3);
    match random.below(64) {
        0 => id.swap(1, 2),
        1 => damage(random, &mut id[part]),
        2 => id[part] = vec![b'a'; near(random, LONGEST)],
        3 => id[part].clear(),
        4 => id[part] = (0..random.below(4)).map(|_| random.next() as u8).collect(),
        5 => move_boundary(random, &mut id),
        _ => {}
    }
    id
}

/// The same bytes with the boundary between two texts elsewhere.
fn move_boundary(random: &mut Random, id: &mut Id) {
    let part = random.below(2);
    let both = [id[part].as_slice(), &id[part + 1]].concat();
    let (front, behind) = both.split_at(random.below(both.len() + 1));
    (id[part], id[part + 1]) = (front.to_vec(), behind.to_vec());
}
