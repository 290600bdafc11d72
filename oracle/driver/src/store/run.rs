//! The comparison of one call, and the counts.

use super::describe::describe;
use super::kind::{Damage, Kind};
use super::memory::{Left, Store};
use crate::bounds;
use crate::progress;
use crate::random::Random;
use crate::record;
use crate::rules::LONGEST;
use crate::run::{Entry, Tally};
use crate::settings;
use port::Settings;

/// The two sides of a list of calls: the store as the port's last call left it, and the book of what it must be.
pub struct Sides<K: Kind> {
    pub store: Store,
    pub book: Result<K::Book, Damage>,
    /// What the port's last call answered.
    pub answered: Answered,
    /// What number it must have been.
    expected: u8,
    /// Whether the list has taken a call that updates.
    updated: bool,
}

/// A call's number and out numbers.
#[derive(Clone, Copy)]
pub struct Answered {
    pub number: u8,
    pub outs: [u64; 3],
}

/// A call as a fault sees it: what it is given, and whether one that updates was taken before it in its list.
pub struct Scene<'a, K: Kind> {
    pub call: &'a K::Call,
    pub lent: usize,
    pub before: &'a Left,
    pub updated: bool,
}

/// A planted fault.
pub struct Fault<K: Kind> {
    /// What PLANTED calls it.
    pub name: &'static str,
    pub operation: &'static str,
    pub what: &'static str,
    /// Changes the port's answer.
    pub distort: fn(&Scene<K>, &mut Left),
}

/// All of these faults, to be put in.
pub fn each_fault<K: Kind>(faults: &'static [Fault<K>]) -> Vec<&'static Fault<K>> {
    faults.iter().collect()
}

/// Those of that name.
pub fn faults_named<K: Kind>(faults: &'static [Fault<K>], name: &str) -> Vec<&'static Fault<K>> {
    faults.iter().filter(|fault| fault.name == name).collect()
}

/// So many bytes lie behind the used ones at first.
const ROOM: usize = 300;

impl<K: Kind> Sides<K> {
    /// A store handed in at a site of these settings; the empty one begins a list.
    pub fn of_store(random: &mut Random, settings: Settings, used: &[u8], counts: [u64; 2]) -> Self {
        let sides = Sides::damaged(random, settings, used, counts, "no damage");
        assert!(sides.book.is_ok(), "these bytes are a store");
        sides
    }

    /// What a store became by this damage; it may be a store still.
    pub fn damaged(random: &mut Random, settings: Settings, used: &[u8], counts: [u64; 2], damage: Damage) -> Self {
        let mut store = Store::new(random, used, ROOM, counts);
        store.settings = settings;
        Sides {
            store,
            book: K::book(used, counts, settings).ok_or(damage),
            answered: Answered {
                number: 0,
                outs: [0; 3],
            },
            expected: 0,
            updated: false,
        }
    }

    /// The book of a store that is one.
    pub fn book(&self) -> &K::Book {
        self.book.as_ref().expect("a store")
    }
}

/// The counts of each operation, and of each planted fault.
pub struct Run<K: Kind> {
    /// The settings of the lists that are begun from now on.
    pub site: Settings,
    entries: Vec<Entry>,
    tallies: Vec<Tally>,
    faults: Vec<(&'static Fault<K>, Tally)>,
    turn: usize,
    /// In a run of other sites: from where the settings come that are outside their bounds.
    others: Option<Random>,
}

impl<K: Kind> Run<K> {
    /// Nothing compared yet.
    pub fn new(faults: &[&'static Fault<K>]) -> Self {
        Run {
            site: Settings::RUST,
            entries: K::OPERATIONS.to_vec(),
            tallies: K::OPERATIONS.iter().map(|_| Tally::default()).collect(),
            faults: faults.iter().map(|fault| (*fault, Tally::default())).collect(),
            turn: 0,
            others: None,
        }
    }

    /// The same for lists at other sites: each call is made with settings outside their bounds first.
    pub fn of_sites(faults: &[&'static Fault<K>], random: Random) -> Self {
        let mut run = Run::new(faults);
        run.entries = K::OPERATIONS.iter().map(settings::entry).collect();
        run.others = Some(random);
        run
    }

    /// What was counted: by operation, in their order, and by fault.
    pub fn finish(self) -> (Vec<(Entry, Tally)>, Vec<(&'static Fault<K>, Tally)>) {
        (self.entries.into_iter().zip(self.tallies).collect(), self.faults)
    }

    /// Compares one call that is lent the first `lent` bytes of the memory; the next one is given what the port left. No where
    /// the port differs: then the list can't go on.
    pub fn compare(&mut self, sides: &mut Sides<K>, call: &K::Call, lent: usize) -> bool {
        let Some(random) = &mut self.others else {
            return self.compare_one(sides, call, lent);
        };
        let site = sides.store.settings;
        sides.store.settings = settings::outside(random);
        let kept = self.compare_one(sides, call, lent);
        sides.store.settings = site;
        let same = kept && self.compare_one(sides, call, lent);
        settings::meet_beside(self.entry(call).name, sides.expected);
        same
    }

    /// A call's operation in the tables.
    fn entry(&self, call: &K::Call) -> Entry {
        self.entries[place::<K>(call)]
    }

    /// Compares one call, given the settings of the store's caller.
    fn compare_one(&mut self, sides: &mut Sides<K>, call: &K::Call, lent: usize) -> bool {
        let pattern = record::pattern(self.turn);
        self.turn += 1;
        let before = Left::before::<K>(call, sides.store.clone(), pattern);
        let mut expected = before.clone();
        match self.others {
            None => K::expect(&mut sides.book, call, lent, &mut expected),
            Some(_) => self.expect_elsewhere(sides, call, lent, &mut expected),
        }
        record::on_store::<K>(call, lent, &before, &expected);
        let mut answered = before.clone();
        K::ask(call, lent, &mut answered);
        let scene: Scene<K> = Scene {
            call,
            lent,
            before: &before,
            updated: sides.updated,
        };
        for (fault, tally) in self
            .faults
            .iter_mut()
            .filter(|(fault, _)| fault.operation == K::name(call))
        {
            let mut wrong = answered.clone();
            (fault.distort)(&scene, &mut wrong);
            count(tally, &scene, &expected, &wrong);
        }
        let tally = &mut self.tallies[place::<K>(call)];
        count(tally, &scene, &expected, &answered);
        sides.updated |= K::updates(call) && expected.number == 0;
        let same = expected == answered;
        progress::compared(same);
        sides.answered = Answered {
            number: answered.number,
            outs: answered.outs,
        };
        sides.expected = expected.number;
        sides.store = answered.store;
        same
    }

    /// The expected answer at another site, whose calls meet bounds of their own.
    fn expect_elsewhere(&self, sides: &mut Sides<K>, call: &K::Call, lent: usize, expected: &mut Left) {
        let name = self.entry(call).name;
        settings::meet(name, sides.store.settings);
        if settings::permitted(sides.store.settings).is_ok() {
            K::meet_site(name, &sides.book, call);
        }
        bounds::quietly(|| K::expect(&mut sides.book, call, lent, expected));
    }
}

/// Where a call's operation stands among those of its kind.
fn place<K: Kind>(call: &K::Call) -> usize {
    let place = K::OPERATIONS.iter().position(|entry| entry.name == K::name(call));
    place.expect("a listed operation")
}

/// Counts a call.
fn count<K: Kind>(tally: &mut Tally, scene: &Scene<K>, expected: &Left, answered: &Left) {
    let longest = K::texts(scene.call).iter().any(|(_, text)| text.len() == LONGEST);
    tally.longest_read += u64::from(longest && expected.number != 1);
    tally.count(expected.number, expected == answered, || {
        describe(scene, expected, answered)
    });
}

/// A fault: leaves all as it was, and answers this number.
pub fn keep<K: Kind>(scene: &Scene<K>, left: &mut Left, number: u8) {
    *left = scene.before.clone();
    left.number = number;
}

/// A fault: where a store grew to exactly the lent bytes, 18.
pub fn refuse_exact_fit<K: Kind>(scene: &Scene<K>, left: &mut Left) {
    let grew = left.store.used > scene.before.store.used;
    if left.number == 0 && grew && left.store.used == scene.lent {
        keep(scene, left, 18);
    }
}

/// A fault: the bytes that a call freed are cleared.
pub fn clear_freed<K: Kind>(scene: &Scene<K>, left: &mut Left) {
    let freed = left.store.used..scene.before.store.used;
    if left.number == 0 {
        left.store.memory()[freed].fill(0);
    }
}

/// A fault: the port is asked with other settings.
pub fn ask_at<K: Kind>(scene: &Scene<K>, left: &mut Left, settings: Settings) {
    *left = scene.before.clone();
    left.store.settings = settings;
    K::ask(scene.call, scene.lent, left);
    left.store.settings = scene.before.store.settings;
}

/// A fault: the whole memory counts as lent, so a used length over the lent one is taken.
pub fn lend_all<K: Kind>(scene: &Scene<K>, left: &mut Left) {
    *left = scene.before.clone();
    let whole = left.store.size();
    K::ask(scene.call, whole, left);
}
