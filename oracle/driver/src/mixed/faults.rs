//! Planted faults of mixed lists: a call on one store changes a byte of another.

use crate::prack::call::{Pracks, REGISTER, REMOVE_DIALOG, VALIDATE};
use crate::rseq::call::{RSeqs, NEXT, REMOVE};
use crate::store::call::{PUT, REQUEST, SWEEP};
use crate::store::dialogs::Dialogs;
use crate::store::kind::Kind;
use crate::store::memory::Left;
use crate::store::run::{Fault, Scene};

/// The store of records lies first, the RSeq store in the middle, the PRACK store last.
pub const RECORD_FAULTS: &[Fault<Dialogs>] = &[
    Fault {
        name: "mixed-put",
        operation: PUT,
        what: "a put changes the first byte of the RSeq store",
        distort: touch_behind,
    },
    Fault {
        name: "mixed-request",
        operation: REQUEST,
        what: "a refused request changes the first byte of the RSeq store",
        distort: |scene, left| {
            if left.number != 0 {
                touch_behind(scene, left);
            }
        },
    },
    Fault {
        name: "mixed-sweep",
        operation: SWEEP,
        what: "a sweep changes the last byte of all",
        distort: |_, left| *left.store.bytes.last_mut().expect("guard bytes") ^= 1,
    },
];

pub const RSEQ_FAULTS: &[Fault<RSeqs>] = &[
    Fault {
        name: "mixed-rseq_next",
        operation: NEXT,
        what: "a new RSeq number changes the first byte of the PRACK store",
        distort: touch_behind,
    },
    Fault {
        name: "mixed-rseq_remove",
        operation: REMOVE,
        what: "a removed RSeq number changes the last byte of the store of records",
        distort: touch_before,
    },
];

pub const PRACK_FAULTS: &[Fault<Pracks>] = &[
    Fault {
        name: "mixed-prack_register",
        operation: REGISTER,
        what: "a registered response changes the last byte of the RSeq store",
        distort: touch_before,
    },
    Fault {
        name: "mixed-prack_validate",
        operation: VALIDATE,
        what: "an accepted PRACK changes the first byte of the store of records",
        distort: |scene, left| {
            let first = crate::dialogs::room::GUARD;
            if left.number == 0 && scene.before.store.place.start > 2 * first {
                left.store.bytes[first] ^= 1;
            }
        },
    },
    Fault {
        name: "mixed-prack_remove_dialog",
        operation: REMOVE_DIALOG,
        what: "a removed dialog changes the last byte of the RSeq store",
        distort: touch_before,
    },
];

/// The first byte of the store behind.
fn touch_behind<K: Kind>(_: &Scene<K>, left: &mut Left) {
    left.store.touch_other(true);
}

/// The last byte of the store before.
fn touch_before<K: Kind>(_: &Scene<K>, left: &mut Left) {
    left.store.touch_other(false);
}
