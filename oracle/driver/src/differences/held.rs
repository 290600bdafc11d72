//! A store on both sides: the Rust's manager or validator behind the run's book, and the port's bytes, as the last call left them.

use super::row::Said;
use crate::random::Random;
use crate::run::PATTERNS;
use crate::store::kind::Kind;
use crate::store::memory::Left;
use crate::store::run::Sides;
use port::Settings;

/// A store under way.
pub struct Held<K: Kind> {
    sides: Sides<K>,
    random: Random,
}

/// More bytes than any call of a case adds.
const ROOM: usize = 1000;

impl<K: Kind> Held<K> {
    /// A store of these used bytes.
    pub fn of(used: &[u8]) -> Self {
        let mut random = Random::new(1, "differences");
        Held {
            sides: Sides::of_store(&mut random, Settings::RUST, used, [0, 0]),
            random,
        }
    }

    /// What a call that is lent more than enough leaves on each side.
    pub fn call(&mut self, call: &K::Call) -> [Left; 2] {
        let lent = self.sides.store.used + ROOM;
        self.call_lent(call, lent)
    }

    /// What a call that is lent so many bytes leaves on each side.
    pub fn call_lent(&mut self, call: &K::Call, lent: usize) -> [Left; 2] {
        self.sides.store.grow(&mut self.random, lent);
        let before = Left::before::<K>(call, self.sides.store.clone(), PATTERNS[0]);
        let [mut rust, mut port] = [before.clone(), before];
        K::expect(&mut self.sides.book, call, lent, &mut rust);
        K::ask(call, lent, &mut port);
        self.sides.store = port.store.clone();
        [rust, port]
    }

    /// The answers of a call in words.
    pub fn said(&mut self, call: &K::Call, accepted: impl Fn(&mut Left) -> String) -> Said {
        let [rust, port] = self.call(call).map(|left| in_words(left, &accepted));
        Said { rust, port }
    }

    /// The same of a call that answers nothing but that it is accepted.
    pub fn check(&mut self, call: &K::Call) -> Said {
        self.said(call, |_| "accepted".into())
    }
}

/// What a call leaves in words: those of an accepted one, or the refusal.
pub fn in_words(mut left: Left, accepted: impl Fn(&mut Left) -> String) -> String {
    match left.number {
        0 => accepted(&mut left),
        number => format!("refused {number}"),
    }
}
