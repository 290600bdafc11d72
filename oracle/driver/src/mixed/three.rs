//! The three stores of a mixed list, beside each other in one allocation, with guard bytes around each of them.

use crate::all::Everything;
use crate::prack::call::Pracks;
use crate::random::Random;
use crate::rseq::call::RSeqs;
use crate::store::dialogs::Dialogs;
use crate::store::kind::Kind;
use crate::store::run::{Run, Sides};
use port::Settings;

/// The allocation, and the two sides of each store. A store has the allocation's bytes during its calls alone.
pub struct Three {
    bytes: Vec<u8>,
    pub records: Sides<Dialogs>,
    pub rseqs: Sides<RSeqs>,
    pub pracks: Sides<Pracks>,
}

/// A kind of store that a mixed list has.
pub trait Part: Kind {
    /// Its two sides.
    fn sides(three: &mut Three) -> &mut Sides<Self>;

    /// Its run.
    fn run(everything: &mut Everything) -> &mut Run<Self>;
}

impl Part for Dialogs {
    fn sides(three: &mut Three) -> &mut Sides<Dialogs> {
        &mut three.records
    }

    fn run(everything: &mut Everything) -> &mut Run<Dialogs> {
        &mut everything.records
    }
}

impl Part for RSeqs {
    fn sides(three: &mut Three) -> &mut Sides<RSeqs> {
        &mut three.rseqs
    }

    fn run(everything: &mut Everything) -> &mut Run<RSeqs> {
        &mut everything.rseqs
    }
}

impl Part for Pracks {
    fn sides(three: &mut Three) -> &mut Sides<Pracks> {
        &mut three.pracks
    }

    fn run(everything: &mut Everything) -> &mut Run<Pracks> {
        &mut everything.pracks
    }
}

impl Three {
    /// Three empty stores; the counts are those of the store of records.
    pub fn new(random: &mut Random, counts: [u64; 2]) -> Three {
        let mut three = Three {
            bytes: Vec::new(),
            records: Sides::of_store(random, Settings::RUST, &[], counts),
            rseqs: Sides::of_store(random, Settings::RUST, &[], [0, 0]),
            pracks: Sides::of_store(random, Settings::RUST, &[], [0, 0]),
        };
        three.take_in::<Dialogs>();
        three.take_in::<RSeqs>();
        three.take_in::<Pracks>();
        three
    }

    /// Puts a store's own bytes behind those that are in the allocation.
    fn take_in<K: Part>(&mut self) {
        let before = self.bytes.len();
        let store = &mut K::sides(self).store;
        store.place = store.place.start + before..store.place.end + before;
        let own = std::mem::take(&mut store.bytes);
        self.bytes.extend(own);
    }

    /// Compares a call that is lent so many bytes of its store's memory, of which there are then `size` at least. All bytes of
    /// the allocation are compared. No where the port differs.
    pub fn compare<K: Part>(
        &mut self,
        everything: &mut Everything,
        random: &mut Random,
        call: &K::Call,
        [lent, size]: [usize; 2],
    ) -> bool {
        let bytes = std::mem::take(&mut self.bytes);
        let sides = K::sides(self);
        sides.store.bytes = bytes;
        let end = sides.store.place.end;
        let added = sides.store.grow(random, size);
        let same = K::run(everything).compare(sides, call, lent);
        self.bytes = std::mem::take(&mut sides.store.bytes);
        let stores = [&mut self.records.store, &mut self.rseqs.store, &mut self.pracks.store];
        for place in stores.map(|store| &mut store.place) {
            if place.start > end {
                *place = place.start + added..place.end + added;
            }
        }
        same
    }

    /// The used bytes of the store of records.
    pub fn records(&self) -> &[u8] {
        let store = &self.records.store;
        &self.bytes[store.place.clone()][..store.used]
    }
}
