//! Calls on an RSeq store, beside the Rust's `RSeqManager`.

use super::numbers::{ported, texts, ROOM, SIZES, THINGS};
use super::tables::{table, timed, Plan, Side, Sides};
use crate::rseq::layout::{encode, Entry};
use port::rseq;
use port::store::{Id, Store};
use sip_dialog::storage::hold_rseq;
use sip_dialog::{DialogId, RSeqManager};
use std::hint::black_box;

/// Times the next number, of a dialog that has one and of a new one, the present one, the removal and the two counts.
pub fn rseqs(plan: &Plan) {
    let calls: [(&str, Sides<RSeqs>); 6] = [
        ("rseq_next of a held number", next),
        ("rseq_next of a new dialog", next_new),
        ("rseq_current", current),
        ("rseq_remove", remove),
        ("rseq_len", len),
        ("rseq_is_empty", is_empty),
    ];
    for (title, sides) in calls {
        table(plan, [title, THINGS], &SIZES, RSeqs::new, sides);
    }
}

/// The same RSeq numbers as a store with room, and in a manager.
pub struct RSeqs {
    size: usize,
    bytes: Vec<u8>,
    used: usize,
    manager: RSeqManager,
}

impl RSeqs {
    /// A number for each of so many dialogs. The store is written by the run's own encoder: asking for each would read it each time.
    fn new(size: usize) -> RSeqs {
        let manager = RSeqManager::new();
        let mut entries: Vec<Entry> = Vec::new();
        for number in 0..size {
            hold_rseq(&manager, dialog_id(number), N);
            entries.push((texts(number).map(String::into_bytes), N));
        }
        let mut bytes = encode(&entries);
        let used = bytes.len();
        bytes.resize(used + ROOM, 0);
        RSeqs {
            size,
            bytes,
            used,
            manager,
        }
    }
}

/// The n of a new dialog.
const N: u32 = 70_000;

/// The texts, lent.
fn lent_id(texts: &[String; 3]) -> Id<'_> {
    [0, 1, 2].map(|part| texts[part].as_bytes())
}

/// The port's next.
fn rseq_next(texts: &[String; 3], lent: Store, rseq: &mut u32) -> u8 {
    rseq::next(lent_id(texts), N, lent, rseq)
}

/// The Rust's identifier of the `number`th dialog.
fn dialog_id(number: usize) -> DialogId {
    let [call_id, local, remote] = texts(number);
    DialogId::unchecked_new(call_id, local, remote)
}

/// The number of the middle dialog rises, and is put back between calls.
fn next(both: &RSeqs) -> Vec<Side<'_>> {
    let middle = both.size / 2;
    sides_of_next(both, middle, move |id| hold_rseq(&both.manager, id.clone(), N))
}

/// A dialog without a number gets one, which is taken back between calls.
fn next_new(both: &RSeqs) -> Vec<Side<'_>> {
    sides_of_next(both, both.size, |id| both.manager.remove(id))
}

/// Both sides of a next; how the Rust's number is put back.
fn sides_of_next<'a>(both: &'a RSeqs, number: usize, put_back: impl Fn(&DialogId) + 'a) -> Vec<Side<'a>> {
    let mut bytes = both.bytes.clone();
    let texts = texts(number);
    let id = dialog_id(number);
    vec![
        (
            "Rattle",
            Box::new(move || {
                let mut rseq = 0;
                ported(&both.bytes, both.used, &mut bytes, |lent| {
                    rseq_next(black_box(&texts), lent, &mut rseq)
                })
            }),
        ),
        (
            "Rust",
            Box::new(move || {
                put_back(&id);
                rand::set_next(N);
                timed(|| both.manager.next_rseq(black_box(&id)))
            }),
        ),
    ]
}

/// The number of the middle dialog.
fn current(both: &RSeqs) -> Vec<Side<'_>> {
    let texts = texts(both.size / 2);
    let id = dialog_id(both.size / 2);
    vec![
        (
            "Rattle",
            Box::new(move || {
                let (id, mut number) = (lent_id(black_box(&texts)), 0);
                timed(|| assert_eq!(rseq::current(id, &both.bytes, both.used, &mut number), 0, "held"))
            }),
        ),
        (
            "Rust",
            Box::new(move || {
                hold_rseq(&both.manager, id.clone(), N);
                timed(|| both.manager.current_rseq(black_box(&id)).expect("held"))
            }),
        ),
    ]
}

/// The number of the middle dialog is removed, and put back between calls.
fn remove(both: &RSeqs) -> Vec<Side<'_>> {
    let mut bytes = both.bytes.clone();
    let texts = texts(both.size / 2);
    let id = dialog_id(both.size / 2);
    vec![
        (
            "Rattle",
            Box::new(move || {
                ported(&both.bytes, both.used, &mut bytes, |lent| {
                    rseq::remove(lent_id(black_box(&texts)), lent)
                })
            }),
        ),
        (
            "Rust",
            Box::new(move || {
                hold_rseq(&both.manager, id.clone(), N);
                timed(|| both.manager.remove(black_box(&id)))
            }),
        ),
    ]
}

/// How many dialogs have a number.
fn len(both: &RSeqs) -> Vec<Side<'_>> {
    vec![
        (
            "Rattle",
            Box::new(|| {
                let mut number = 0;
                timed(|| assert_eq!(rseq::len(black_box(&both.bytes), both.used, &mut number), 0, "read"))
            }),
        ),
        ("Rust", Box::new(|| timed(|| black_box(&both.manager).len()))),
    ]
}

/// Whether none has one.
fn is_empty(both: &RSeqs) -> Vec<Side<'_>> {
    vec![
        (
            "Rattle",
            Box::new(|| {
                let mut empty = 0;
                timed(|| assert_eq!(rseq::is_empty(black_box(&both.bytes), both.used, &mut empty), 0, "read"))
            }),
        ),
        ("Rust", Box::new(|| timed(|| black_box(&both.manager).is_empty()))),
    ]
}
