//! Bytes that are no RSeq store.

use super::book::Book;
use super::layout::{encode, Entry};
use crate::dialogs::records;
use crate::random::Random;
use crate::store::entries::SWAPPED;
use crate::store::kind::Damage;

/// The damages that a run of bytes doesn't know.
const TWICE: Damage = "one identifier twice";
const ZERO: Damage = "a number 0";

/// The used bytes of the book's store, damaged once. They may be a store still: a changed byte can give another one.
pub fn damaged(random: &mut Random, book: &Book) -> (Damage, Vec<u8>) {
    if book.entries.is_empty() {
        return (records::LONGER, vec![random.next() as u8]);
    }
    let mut others = Vec::new();
    each_of_entries(&book.entries, random, &mut |damage, bytes| {
        others.push((damage, bytes.to_vec()))
    });
    match random.below(2) {
        0 => others.swap_remove(random.below(others.len())),
        _ => records::broken(random, &book.bytes()),
    }
}

/// Every damage to a store's entries: any two swapped, each one again at any place (at times with another number), each
/// number 0.
pub fn each_of_entries(entries: &[Entry], random: &mut Random, give: &mut dyn FnMut(Damage, &[u8])) {
    for at in 0..entries.len().min(MOST) {
        for other in at + 1..entries.len().min(MOST) {
            let mut swapped = entries.to_vec();
            swapped.swap(at, other);
            give(SWAPPED, &encode(&swapped));
        }
        for place in 0..=entries.len().min(MOST) {
            let mut twice = entries.to_vec();
            let (id, number) = entries[at].clone();
            let other = number.wrapping_add(u32::from(random.one_in(2))).max(1);
            twice.insert(place, (id, other));
            give(TWICE, &encode(&twice));
        }
        let mut zero = entries.to_vec();
        zero[at].1 = 0;
        give(ZERO, &encode(&zero));
    }
}

/// Only so many entries at the front are damaged.
const MOST: usize = 4;
