//! What the two stores of entries in order have in common: calls on damaged ones, and on one of three entries with every choice
//! of causes to be refused.

use super::kind::{Damage, Kind};
use super::run::{Run, Sides};
use crate::dialogs::records;
use crate::random::Random;

/// The damage that changes the order alone.
pub const SWAPPED: Damage = "two entries swapped";

/// Whole, cut off by one byte, with two entries swapped, or lent one byte less than is used.
pub const STORES: usize = 4;

/// Behind the used bytes: much room, none, as much as the call may need, one byte less, one byte more.
pub const ROOMS: usize = 5;

/// The used bytes of the store so chosen, and how it is damaged where it is.
pub fn chosen<E>(store: usize, mut entries: [E; 3], encode: impl Fn(&[E]) -> Vec<u8>) -> (Damage, Vec<u8>) {
    if store == 2 {
        entries.swap(0, 2);
        return (SWAPPED, encode(&entries));
    }
    let mut bytes = encode(&entries);
    bytes.truncate(bytes.len() - usize::from(store == 1));
    (records::CUT, bytes)
}

/// How many bytes are lent for the choices of store and room.
pub fn lent_for([store, room]: [usize; 2], used: usize, growth: usize) -> usize {
    let needed = used + growth;
    match (store, room) {
        (3, _) => used - 1,
        (_, 0) => needed + 200,
        (_, 1) => used,
        (_, 2) => needed,
        (_, 3) => (needed - 1).max(used),
        _ => needed + 1,
    }
}

/// Calls on every store that one becomes by any byte in any one place, by an end cut off, by any byte behind it, and by the
/// damages to its entries that are given besides.
pub fn each_broken<K: Kind>(
    run: &mut Run<K>,
    random: &mut Random,
    store: &[u8],
    each_of_entries: impl Fn(&mut Random, &mut dyn FnMut(Damage, &[u8])),
    calls: impl Fn(&mut Random, usize) -> Vec<K::Call>,
) {
    let mut broken: Vec<(Damage, Vec<u8>)> = Vec::new();
    let mut give = |damage, bytes: &[u8]| broken.push((damage, bytes.to_vec()));
    records::each_broken(store, &mut give);
    each_of_entries(random, &mut give);
    for (turn, (damage, bytes)) in broken.iter().enumerate() {
        for call in calls(random, turn) {
            let mut other = Sides::damaged(random, run.site, bytes, [0, 0], damage);
            let lent = random.pick(&[bytes.len(), other.store.size()]);
            run.compare(&mut other, &call, lent);
        }
    }
}
