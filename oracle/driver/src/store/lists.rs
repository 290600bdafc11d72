//! Random lists of calls: each from an empty store, each call given what the last one left.

use super::calls::{self, Pool};
use super::damage::damaged;
use super::dialogs::Dialogs;
use super::kind::{Damage, Kind};
use super::run::{Run, Sides};
use crate::dialogs::records;
use crate::random::Random;

/// The most calls of a random list.
const LONGEST_LIST: usize = 120;

/// So many bytes at least lie behind the lent ones.
pub const SPARE: usize = 24;

/// A list under way.
pub struct List<'a, K: Kind> {
    run: &'a mut Run<K>,
    pub random: &'a mut Random,
    pub sides: Sides<K>,
}

impl<'a, K: Kind> List<'a, K> {
    /// A list that begins with this store.
    pub fn new(run: &'a mut Run<K>, random: &'a mut Random, used: &[u8], counts: [u64; 2]) -> Self {
        let sides = Sides::of_store(random, run.site, used, counts);
        List { run, random, sides }
    }

    /// A call that is lent so many bytes; no where the port differs.
    pub fn compare(&mut self, call: &K::Call, lent: usize) -> bool {
        self.sides.store.grow(self.random, lent + SPARE);
        self.run.compare(&mut self.sides, call, lent)
    }

    /// Calls that are lent about as much as their results need.
    pub fn each(&mut self, calls: &[K::Call]) -> bool {
        calls.iter().all(|call| {
            let lent = lent(self.random, &self.sides, call);
            self.compare(call, lent)
        })
    }

    /// Calls that are lent more than enough.
    pub fn each_roomy(&mut self, calls: &[K::Call]) -> bool {
        calls.iter().all(|call| {
            let lent = roomy(self.random, &self.sides, call);
            self.compare(call, lent)
        })
    }

    /// So many random calls, until the port differs; one time in twelve a call on damaged bytes comes before.
    pub fn go_through(
        mut self,
        make: impl Fn(&mut Random, &K::Book) -> K::Call,
        damaged: impl Fn(&mut Random, &K::Book) -> (Damage, Vec<u8>),
    ) {
        for _ in 0..1 + self.random.below(LONGEST_LIST) {
            if self.random.one_in(12) {
                let book = self.sides.book();
                let damaged = damaged(self.random, book);
                let call = make(self.random, book);
                self.interrupt(&call, damaged);
            }
            let call = make(self.random, self.sides.book());
            if !self.each(&[call]) {
                return;
            }
        }
    }

    /// A call on damaged bytes in between. Where they are a store still, it is one handed in.
    pub fn interrupt(&mut self, call: &K::Call, (damage, bytes): (Damage, Vec<u8>)) {
        let random = &mut *self.random;
        let counts = [self.sides.store.created, self.sides.store.terminated];
        let mut other = Sides::damaged(random, self.run.site, &bytes, counts, damage);
        let lent = random.pick(&[bytes.len(), other.store.size()]);
        if random.one_in(6) {
            other.store.used = random.pick(&[lent + 1, usize::MAX, usize::MAX, 1 << 63]);
        }
        self.run.compare(&mut other, call, lent);
    }
}

/// About as many bytes as the result of a call needs.
pub fn lent<K: Kind>(random: &mut Random, sides: &Sides<K>, call: &K::Call) -> usize {
    let book = sides.book();
    calls::lent(random, K::used(book), K::used_after(book, call))
}

/// More than enough.
pub fn roomy<K: Kind>(random: &mut Random, sides: &Sides<K>, call: &K::Call) -> usize {
    let book = sides.book();
    K::used(book) + K::used_after(book, call) + random.below(200)
}

/// One random list.
pub fn list(run: &mut Run<Dialogs>, random: &mut Random) {
    let counts = counts(random);
    let pool = Pool::new(random);
    let list = List::new(run, random, &[], counts);
    list.go_through(|random, book| calls::make(random, &pool, book), damaged);
}

/// The counts at the start of a list: mostly none, at times so large that they stop.
pub fn counts(random: &mut Random) -> [u64; 2] {
    [0; 2].map(|_| match random.below(8) {
        0 => u64::MAX - random.below(4) as u64,
        1 => random.next() >> random.below(64),
        _ => 0,
    })
}

/// A random call on every store that one of two records becomes by any byte in any one place, by an end cut off, or by any
/// byte behind it.
pub fn each_broken(run: &mut Run<Dialogs>, random: &mut Random) {
    let store = records::templates().concat();
    let whole: Sides<Dialogs> = Sides::of_store(random, run.site, &store, [0, 0]);
    let pool = Pool::new(random);
    records::each_broken(&store, &mut |damage, bytes| {
        let mut other = Sides::damaged(random, run.site, bytes, [0, 0], damage);
        let call = calls::make(random, &pool, whole.book());
        let lent = other.store.size();
        run.compare(&mut other, &call, lent);
    });
}
