//! A mixed list under way: its stores, its clock and its lines.

use super::leaves;
use super::line::Line;
use super::three::{Part, Three};
use crate::all::Everything;
use crate::dialogs::calls::Call;
use crate::dialogs::{listing, readings, updates};
use crate::operations;
use crate::prack::call::Pracks;
use crate::prack::steps::LONG;
use crate::random::Random;
use crate::rseq::call::RSeqs;
use crate::rules::LISTING;
use crate::run::feed_of;
use crate::store::dialogs::Dialogs;
use crate::store::kind::Kind;
use crate::store::lists::{counts, lent, roomy, SPARE};
use crate::store::run::Answered;
use crate::{prack, rseq, store};
use std::ops::ControlFlow;

/// The list ends where the port differs: what follows would be a consequence.
pub type Flow = ControlFlow<()>;
pub const ON: Flow = ControlFlow::Continue(());

/// The most steps and lines of a list.
const MOST_STEPS: usize = 80;
const MOST_LINES: usize = 5;

/// A list.
pub struct List<'a> {
    pub everything: &'a mut Everything,
    pub random: &'a mut Random,
    pub three: Three,
    pub clock: u64,
    pub lines: Vec<Line>,
}

/// One mixed list.
pub fn list(everything: &mut Everything, random: &mut Random) {
    let counts = counts(random);
    let lines = (0..1 + random.below(MOST_LINES)).map(|_| Line::new()).collect();
    let steps = 1 + random.below(MOST_STEPS);
    let mut list = List::new(everything, random, counts, lines);
    for _ in 0..steps {
        list.tick();
        let at = list.random.below(list.lines.len());
        if list.step(at).is_break() || list.others(at).is_break() {
            return;
        }
    }
}

impl<'a> List<'a> {
    /// A list that begins with three empty stores and these counts.
    pub fn new(everything: &'a mut Everything, random: &'a mut Random, counts: [u64; 2], lines: Vec<Line>) -> List<'a> {
        let three = Three::new(random, counts);
        let clock = random.pick(&[0, 1, LONG, 7 * LONG]);
        List {
            everything,
            random,
            three,
            clock,
            lines,
        }
    }

    /// The clock goes on: a little, nearly 300 s, so long, more; at times it goes back or comes to its end.
    fn tick(&mut self) {
        let random = &mut *self.random;
        let clock = self.clock;
        self.clock = match random.below(24) {
            0..12 => clock.saturating_add(random.next() % 1_000_000_000),
            12..14 => clock.saturating_add(random.next() % LONG),
            14 => clock.saturating_add(LONG - 1 + random.below(3) as u64),
            15 => clock.saturating_sub(random.next() % LONG),
            16 if random.one_in(40) => u64::MAX,
            _ => clock,
        };
    }

    /// Compares a call on a store, lent more than enough or about as much as its result needs.
    pub fn call<K: Part>(&mut self, call: K::Call) -> ControlFlow<(), Answered> {
        let roomy_lent = !self.random.one_in(4);
        let sides = K::sides(&mut self.three);
        let lent = match roomy_lent {
            true => roomy::<K>(self.random, sides, &call),
            false => lent::<K>(self.random, sides, &call),
        };
        self.compare::<K>(&call, lent)
    }

    /// Compares a call on a store that is lent so many bytes.
    pub fn compare<K: Part>(&mut self, call: &K::Call, lent: usize) -> ControlFlow<(), Answered> {
        let sizes = [lent, lent + SPARE];
        let same = self.three.compare::<K>(self.everything, self.random, call, sizes);
        match same {
            true => ControlFlow::Continue(K::sides(&mut self.three).answered),
            false => ControlFlow::Break(()),
        }
    }

    /// Compares a call of an operation without a store.
    pub fn feed(&mut self, name: &str, call: &Call) -> crate::answer::Answer {
        feed_of(&mut self.everything.feeds, name).compare_and_go_on(&call.input())
    }

    /// Compares up to three operations without a store on what a line has.
    pub fn leaves(&mut self, at: usize) {
        for _ in 0..self.random.below(4) {
            let operation = self.random.pick(&operations::all());
            let call = leaves::call(self.random, operation, &self.lines[at], self.clock);
            self.feed(operation.name, &call);
        }
    }

    /// Up to two other calls: any on a store with the lines' identifiers, any without one.
    fn others(&mut self, at: usize) -> Flow {
        for _ in 0..self.random.below(3) {
            match self.random.below(5) {
                0 => {
                    let pool = store::calls::Pool::of(self.lines.iter().map(|line| line.id.clone()));
                    let call = store::calls::make(self.random, &pool, self.three.records.book());
                    self.other::<Dialogs>(call)?;
                }
                1 => {
                    let pool = rseq::calls::Pool::of(self.lines.iter().map(Line::texts));
                    let call = rseq::calls::make(self.random, &pool, self.three.rseqs.book());
                    self.other::<RSeqs>(call)?;
                }
                2 => {
                    let pool = prack::calls::Pool::of(self.lines.iter().map(Line::text));
                    let call = prack::calls::make(self.random, &pool, self.three.pracks.book());
                    self.other::<Pracks>(call.at(self.clock))?;
                }
                3 => self.leaves(at),
                _ => self.on_records(),
            }
        }
        ON
    }

    /// A call that is lent about as much as its result needs, at times less than is used.
    fn other<K: Part>(&mut self, call: <K as Kind>::Call) -> Flow {
        let lent = lent::<K>(self.random, K::sides(&mut self.three), &call);
        self.compare::<K>(&call, lent)?;
        ON
    }

    /// A reading and a change of a held record's image, and the listing of the store.
    fn on_records(&mut self) {
        let store = self.three.records().to_vec();
        let call = listing::make(self.random, &store);
        self.feed(LISTING, &call);
        let images = &self.three.records.book().images;
        if images.is_empty() {
            return;
        }
        let image = images[self.random.below(images.len())].clone();
        for makers in [readings::MAKERS, updates::MAKERS] {
            let (name, make) = self.random.pick(makers);
            let call = make(self.random, &image);
            self.feed(name, &call);
        }
    }
}
