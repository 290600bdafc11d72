//! Bytes that are no PRACK store.

use super::book::Book;
use super::calls;
use super::layout::{encode, Entry, RESPONSE};
use super::steps::LONG;
use crate::dialogs::records;
use crate::random::Random;
use crate::store::entries::SWAPPED;
use crate::store::kind::Damage;

/// The damages that a run of bytes doesn't know.
const TWICE: Damage = "one text twice";
const ELEVEN: Damage = "eleven responses";
const FLAG: Damage = "a flag 2";
const METHOD: Damage = "a method 0 or 15";
const LIST: Damage = "a list byte 2";

/// The used bytes of the book's store, damaged once. They may be a store still: a changed byte can give another one.
pub fn damaged(random: &mut Random, book: &Book) -> (Damage, Vec<u8>) {
    if book.entries.is_empty() {
        return (records::LONGER, vec![random.next() as u8]);
    }
    if random.one_in(2) {
        return records::broken(random, &book.bytes());
    }
    let mut others = Vec::new();
    each_of_entries(
        &book.entries,
        book.settings.pending as usize,
        random,
        &mut |damage, bytes| others.push((damage, bytes.to_vec())),
    );
    others.swap_remove(random.below(others.len()))
}

/// Every damage to a store's entries: any two swapped, each one again at any place (at times with another time), each list byte
/// 2, each list with a response more than the site allows, each flag 2, each method 0 and 15.
pub fn each_of_entries(entries: &[Entry], most: usize, random: &mut Random, give: &mut dyn FnMut(Damage, &[u8])) {
    let damaged = entries.len().min(MOST_DAMAGED);
    for at in 0..damaged {
        for other in at + 1..damaged {
            let mut swapped = entries.to_vec();
            swapped.swap(at, other);
            give(SWAPPED, &encode(&swapped));
        }
        for place in 0..=damaged {
            let mut twice = entries.to_vec();
            let mut again = entries[at].clone();
            again.cleaned_at ^= u64::from(random.one_in(2));
            twice.insert(place, again);
            give(TWICE, &encode(&twice));
        }
        let mut eleven = entries.to_vec();
        let list = eleven[at].list.get_or_insert_default();
        list.resize_with(most + 1, || calls::response(random, 0, LONG));
        give(ELEVEN, &encode(&eleven));
        each_of_bytes(entries, at, give);
    }
}

/// Only so many entries at the front are damaged.
const MOST_DAMAGED: usize = 3;

/// Where the method and the flag of a response lie.
const METHOD_AT: usize = 8;
const FLAG_AT: usize = 11;

/// Every damage to a single byte of one entry.
fn each_of_bytes(entries: &[Entry], at: usize, give: &mut dyn FnMut(Damage, &[u8])) {
    let bytes = encode(entries);
    let mut with = |damage: Damage, place: usize, byte: u8| {
        let mut changed = bytes.clone();
        changed[place] = byte;
        give(damage, &changed);
    };
    let before: usize = entries[..at].iter().map(Entry::size).sum();
    let list = before + 2 + entries[at].id.len() + 8;
    with(LIST, list, 2);
    for number in 0..entries[at].responses().len() {
        let place = list + 2 + number * RESPONSE;
        with(METHOD, place + METHOD_AT, 0);
        with(METHOD, place + METHOD_AT, 15);
        with(FLAG, place + FLAG_AT, 2);
    }
}
