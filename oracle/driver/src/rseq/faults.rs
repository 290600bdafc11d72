//! Planted faults: each changes what the port answered to calls of one operation, and each must be reported.

use super::call::{Call, RSeqs, CURRENT, IS_EMPTY, LEN, NEXT, REMOVE};
use super::layout::{decode, encode, take_entry, Entry};
use crate::store::call::Id;
use crate::store::memory::{Left, Store};
use crate::store::run;

type Scene<'a> = run::Scene<'a, RSeqs>;
type Fault = run::Fault<RSeqs>;

pub const FAULTS: &[Fault] = &[
    Fault {
        name: "rseq_next",
        operation: NEXT,
        what: "a held number isn't raised",
        distort: |scene, left| {
            if let Some(held) = taken(scene, left) {
                put_number(scene, left, held);
            }
        },
    },
    Fault {
        name: "rseq_next-wrap",
        operation: NEXT,
        what: "after the largest number comes 1",
        distort: |scene, left| {
            if taken(scene, left) == Some(u32::MAX) {
                put_number(scene, left, 1);
            }
        },
    },
    Fault {
        name: "rseq_next-n",
        operation: NEXT,
        what: "n is looked at where a number is held",
        distort: |scene, left| {
            if let (Some(_), Call::Next { n, .. }) = (taken(scene, left), scene.call) {
                put_number(scene, left, (n & (u32::MAX >> 1)).max(1));
            }
        },
    },
    Fault {
        name: "rseq_next-0",
        operation: NEXT,
        what: "an n of 0 gives 0",
        distort: |scene, left| {
            if let (true, Call::Next { n: 0, .. }) = (grew(scene, left), scene.call) {
                put_number(scene, left, 0);
            }
        },
    },
    Fault {
        name: "rseq_next-31",
        operation: NEXT,
        what: "the highest bit of n stays",
        distort: |scene, left| {
            if let (true, Call::Next { n, .. }) = (grew(scene, left), scene.call) {
                put_number(scene, left, (*n).max(1));
            }
        },
    },
    Fault {
        name: "rseq_next-order",
        operation: NEXT,
        what: "a new entry is put at the end",
        distort: put_at_end,
    },
    Fault {
        name: "rseq_next-joined",
        operation: NEXT,
        what: "entries are in the order of their bytes",
        distort: |scene, left| {
            if grew(scene, left) {
                rewrite(left, |entries| {
                    entries.sort_by_cached_key(|entry| encode(&[entry.clone()]))
                });
            }
        },
    },
    Fault {
        name: "rseq_next-18",
        operation: NEXT,
        what: "18 while bytes are free: an exact fit is refused",
        distort: run::refuse_exact_fit,
    },
    Fault {
        name: "rseq_next-byte",
        operation: NEXT,
        what: "the byte past the used length is touched",
        distort: |_, left| left.store.touch(left.store.used),
    },
    Fault {
        name: "rseq_next-used",
        operation: NEXT,
        what: "a refused call moves the used length",
        distort: |_, left| left.store.used ^= usize::from(left.number != 0),
    },
    Fault {
        name: "rseq_next-out",
        operation: NEXT,
        what: "18 answers a number too",
        distort: |_, left| {
            if left.number == 18 {
                left.outs[0] = 1;
            }
        },
    },
    Fault {
        name: "rseq_current",
        operation: CURRENT,
        what: "the next number is answered",
        distort: |_, left| left.outs[0] = left.outs[0].wrapping_add(u64::from(left.number == 0)),
    },
    Fault {
        name: "rseq_current-15",
        operation: CURRENT,
        what: "0 is answered where none is held",
        distort: |_, left| {
            if left.number == 15 {
                (left.number, left.outs[0]) = (0, 0);
            }
        },
    },
    Fault {
        name: "rseq_current-joined",
        operation: CURRENT,
        what: "the boundaries of the texts don't count",
        distort: find_joined,
    },
    Fault {
        name: "rseq_remove",
        operation: REMOVE,
        what: "the freed bytes are cleared",
        distort: run::clear_freed,
    },
    Fault {
        name: "rseq_remove-15",
        operation: REMOVE,
        what: "a removal of nothing is refused",
        distort: |scene, left| {
            if left.number == 0 && held(scene).is_none() {
                left.number = 15;
            }
        },
    },
    Fault {
        name: "rseq_remove-byte",
        operation: REMOVE,
        what: "the byte past the lent ones is touched",
        distort: |scene, left| left.store.touch(scene.lent),
    },
    Fault {
        name: "rseq_remove-guard",
        operation: REMOVE,
        what: "the byte before the store is touched",
        distort: |_, left| left.store.touch_before(),
    },
    Fault {
        name: "rseq_len",
        operation: LEN,
        what: "the last entry isn't counted",
        distort: |_, left| {
            if left.number == 0 {
                left.outs[0] = left.outs[0].saturating_sub(1);
            }
        },
    },
    Fault {
        name: "rseq_len-order",
        operation: LEN,
        what: "entries in any order are taken",
        distort: |scene, left| take_loosely(scene, left, |entries| entries.sort()),
    },
    Fault {
        name: "rseq_len-twice",
        operation: LEN,
        what: "one identifier twice is taken",
        distort: |scene, left| take_loosely(scene, left, |entries| entries.dedup_by(|one, other| one.0 == other.0)),
    },
    Fault {
        name: "rseq_is_empty",
        operation: IS_EMPTY,
        what: "no store is empty",
        distort: |_, left| {
            if left.number == 0 {
                left.outs[0] = 0;
            }
        },
    },
    Fault {
        name: "rseq_is_empty-0",
        operation: IS_EMPTY,
        what: "a number 0 is taken",
        distort: |scene, left| {
            take_loosely(scene, left, |entries| {
                entries.iter_mut().for_each(|(_, number)| *number = (*number).max(1));
            });
        },
    },
    Fault {
        name: "rseq_is_empty-lent",
        operation: IS_EMPTY,
        what: "a used length over the lent one is taken",
        distort: run::lend_all,
    },
];

/// The entries of a store; none where it isn't one.
fn entries(store: &Store) -> Vec<Entry> {
    decode(store.used_bytes()).unwrap_or_default()
}

/// The number that a call's identifier had before it.
fn held(scene: &Scene) -> Option<u32> {
    let id = scene.call.id()?;
    let held = entries(&scene.before.store).into_iter().find(|(held, _)| held == id);
    held.map(|(_, number)| number)
}

/// The same of an accepted call.
fn taken(scene: &Scene, left: &Left) -> Option<u32> {
    held(scene).filter(|_| left.number == 0)
}

/// Whether an entry was put in.
fn grew(scene: &Scene, left: &Left) -> bool {
    left.number == 0 && left.store.used > scene.before.store.used
}

/// Writes a store's entries anew; they are of the same size.
fn rewrite(left: &mut Left, change: impl FnOnce(&mut Vec<Entry>)) {
    let mut entries = entries(&left.store);
    change(&mut entries);
    left.store.write(&encode(&entries));
}

/// Another number is held and answered.
fn put_number(scene: &Scene, left: &mut Left, number: u32) {
    left.outs[0] = u64::from(number);
    rewrite(left, |entries| {
        for (id, held) in entries {
            if Some(&*id) == scene.call.id() {
                *held = number;
            }
        }
    });
}

/// The new entry stands behind all others.
fn put_at_end(scene: &Scene, left: &mut Left) {
    if let (true, Some(id)) = (grew(scene, left), scene.call.id()) {
        rewrite(left, |entries| entries.sort_by_key(|(held, _)| held == id));
    }
}

/// The entry whose three texts, one after another, are the same bytes is found.
fn find_joined(scene: &Scene, left: &mut Left) {
    let joined = |id: &Id| id.concat();
    let Some(asked) = scene.call.id().filter(|_| left.number == 15).map(joined) else {
        return;
    };
    let found = entries(&left.store).into_iter().find(|(id, _)| joined(id) == asked);
    if let Some((_, number)) = found {
        (left.number, left.outs[0]) = (0, u64::from(number));
    }
}

/// Where a change makes the damaged bytes a store, it is read as that store.
fn take_loosely(scene: &Scene, left: &mut Left, mend: impl FnOnce(&mut Vec<Entry>)) {
    let Some(mut entries) = read_loosely(left.store.used_bytes()) else {
        return;
    };
    mend(&mut entries);
    if left.number == 3 && left.store.used <= scene.lent && decode(&encode(&entries)).is_some() {
        left.number = 0;
        left.outs[0] = match scene.call {
            Call::Len => entries.len() as u64,
            _ => u64::from(entries.is_empty()),
        };
    }
}

/// The entries of bytes whatever their order and numbers.
fn read_loosely(mut rest: &[u8]) -> Option<Vec<Entry>> {
    let mut entries = Vec::new();
    while !rest.is_empty() {
        entries.push(take_entry(&mut rest)?);
    }
    Some(entries)
}
