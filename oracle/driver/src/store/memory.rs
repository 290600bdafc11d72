//! The memory that a store lies in, as one call leaves it for the next, and all else that a call leaves.

use super::kind::Kind;
use crate::dialogs::room::{self, GUARD};
use crate::random::Random;
use port::Settings;
use std::ops::Range;

/// A store: all bytes of an allocation, where in it the store's memory lies, its used length, and what its caller keeps: the two
/// counts, and the settings that a call is given. Around the memory are guard bytes, and in a mixed list the two other stores.
#[derive(Clone, PartialEq, Eq)]
pub struct Store {
    pub bytes: Vec<u8>,
    pub place: Range<usize>,
    pub used: usize,
    pub created: u64,
    pub terminated: u64,
    pub settings: Settings,
}

impl Store {
    /// A store of these used bytes, with `room` bytes of no meaning behind them, in an allocation of its own.
    pub fn new(random: &mut Random, used: &[u8], room: usize, [created, terminated]: [u64; 2]) -> Store {
        let mut memory = used.to_vec();
        memory.extend(filling(random, room));
        Store {
            bytes: room::guarded(&memory, random.next()),
            place: GUARD..GUARD + memory.len(),
            used: used.len(),
            created,
            terminated,
            settings: Settings::RUST,
        }
    }

    /// The whole memory without what is around it.
    pub fn memory(&mut self) -> &mut [u8] {
        &mut self.bytes[self.place.clone()]
    }

    /// How large the memory is.
    pub fn size(&self) -> usize {
        self.place.len()
    }

    /// The used bytes; none where the used length is over the memory's size.
    pub fn used_bytes(&self) -> &[u8] {
        let memory = &self.bytes[self.place.clone()];
        memory.get(..self.used).unwrap_or_default()
    }

    /// Lends the first `length` bytes of the memory with the used length.
    pub fn lend(&mut self, length: usize) -> port::store::Store<'_> {
        port::store::Store {
            bytes: &mut self.bytes[self.place.clone()][..length],
            used: &mut self.used,
        }
    }

    /// Makes these the used bytes; those behind them stay.
    pub fn write(&mut self, used: &[u8]) {
        self.memory()[..used.len()].copy_from_slice(used);
        self.used = used.len();
    }

    /// A fault: touches a byte of the memory, if there is one at that place.
    pub fn touch(&mut self, place: usize) {
        if let Some(byte) = self.memory().get_mut(place) {
            *byte ^= 1;
        }
    }

    /// A fault: touches the last byte before the memory.
    pub fn touch_before(&mut self) {
        self.bytes[self.place.start - 1] ^= 1;
    }

    /// A fault: touches the first byte of the store behind this one, or the last of the one before it, if there is one.
    pub fn touch_other(&mut self, behind: bool) {
        let place = match behind {
            true => Some(self.place.end + 2 * GUARD),
            false => self.place.start.checked_sub(2 * GUARD + 1),
        };
        if let Some(byte) = place.and_then(|place| self.bytes.get_mut(place)) {
            *byte ^= 1;
        }
    }

    /// Gives the memory `size` bytes at least, as a caller does who moves a store. How many bytes were added.
    pub fn grow(&mut self, random: &mut Random, size: usize) -> usize {
        let added = size.saturating_sub(self.size());
        let end = self.place.end;
        self.bytes.splice(end..end, filling(random, added));
        self.place.end += added;
        added
    }
}

/// Bytes of no meaning.
fn filling(random: &mut Random, length: usize) -> Vec<u8> {
    let mut bytes = Vec::with_capacity(length + 8);
    while bytes.len() < length {
        bytes.extend(random.next().to_be_bytes());
    }
    bytes.truncate(length);
    bytes
}

/// All that a call leaves: its number, its out numbers, its lent output between guard bytes, and the store with all that lies
/// around it.
#[derive(Clone, PartialEq, Eq)]
pub struct Left {
    pub number: u8,
    /// The number or the least; the count or the length written; place and length; RSeq, CSeq and method.
    pub outs: [u64; 3],
    pub output: Vec<u8>,
    pub store: Store,
}

impl Left {
    /// What a call is given: out numbers and lent output hold the pattern.
    pub fn before<K: Kind>(call: &K::Call, store: Store, pattern: u64) -> Left {
        let output = vec![pattern as u8; K::output(call)];
        Left {
            number: 0,
            outs: K::widest(call).map(|widest| pattern & widest),
            output: room::guarded(&output, pattern),
            store,
        }
    }
}
