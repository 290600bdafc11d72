//! Calls with every choice of causes to be refused at once, which show the order in which they are tried. Each is on a store
//! of three entries, handed in.

use super::call::{Call, RSeqs};
use super::calls::FIRSTS;
use super::layout::{encode, entry_size};
use super::lists::three;
use crate::random::Random;
use crate::rules::LONGEST;
use crate::store::call::Id;
use crate::store::entries::{chosen, lent_for, ROOMS, STORES};
use crate::store::run::{Run, Sides};
use crate::texts::each_choice;

/// Held ones, then one that isn't held, with any part of the longest length or longer by one.
const IDS: usize = 11;

/// All of them, for each n.
pub fn each(run: &mut Run<RSeqs>, random: &mut Random) {
    each_choice(&[FIRSTS.len(), IDS, STORES, ROOMS], &mut |choice| {
        let id = id(choice[1]);
        for call in Call::all(&id, FIRSTS[choice[0]]) {
            give(run, random, &call, &id, [choice[2], choice[3]]);
        }
    });
}

/// An identifier of the three, another one, one with a part of the longest length, one with a part that is too long, or all
/// parts so.
fn id(choice: usize) -> Id {
    let mut id = three()[choice % 3].0.clone();
    match choice {
        0..3 => {}
        3 => id.swap(0, 1),
        4..7 => id[choice - 4] = vec![b'x'; LONGEST],
        7..10 => id[choice - 7] = vec![b'x'; LONGEST + 1],
        _ => id = [0; 3].map(|_| vec![b'x'; LONGEST + 1]),
    }
    id
}

/// Compares a call on the store so chosen.
fn give(run: &mut Run<RSeqs>, random: &mut Random, call: &Call, id: &Id, [store, room]: [usize; 2]) {
    let (damage, bytes) = chosen(store, three(), encode);
    let mut sides = Sides::damaged(random, run.site, &bytes, [0, 0], damage);
    let lent = lent_for([store, room], bytes.len(), entry_size(id));
    sides.store.grow(random, lent + 8);
    run.compare(&mut sides, call, lent);
}
