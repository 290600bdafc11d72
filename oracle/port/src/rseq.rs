//! The C functions on an RSeq store.

use crate::c;
use crate::store::{Id, Store};

/// The next number of an identifier; n is for a new one.
pub fn next([call_id, local, remote]: Id, n: u32, store: Store, rseq: &mut u32) -> u8 {
    unsafe {
        c::sip_dialog_rseq_next(
            call_id.as_ptr(),
            call_id.len(),
            local.as_ptr(),
            local.len(),
            remote.as_ptr(),
            remote.len(),
            n,
            store.bytes.as_mut_ptr(),
            store.bytes.len(),
            store.used,
            rseq,
        )
    }
}

/// The number of an identifier.
pub fn current([call_id, local, remote]: Id, store: &[u8], used: usize, rseq: &mut u32) -> u8 {
    unsafe {
        c::sip_dialog_rseq_current(
            call_id.as_ptr(),
            call_id.len(),
            local.as_ptr(),
            local.len(),
            remote.as_ptr(),
            remote.len(),
            store.as_ptr(),
            store.len(),
            used,
            rseq,
        )
    }
}

/// Drops the number of an identifier.
pub fn remove([call_id, local, remote]: Id, store: Store) -> u8 {
    unsafe {
        c::sip_dialog_rseq_remove(
            call_id.as_ptr(),
            call_id.len(),
            local.as_ptr(),
            local.len(),
            remote.as_ptr(),
            remote.len(),
            store.bytes.as_mut_ptr(),
            store.bytes.len(),
            store.used,
        )
    }
}

/// How many identifiers have a number.
pub fn len(store: &[u8], used: usize, len: &mut usize) -> u8 {
    unsafe { c::sip_dialog_rseq_len(store.as_ptr(), store.len(), used, len) }
}

/// Whether none has one.
pub fn is_empty(store: &[u8], used: usize, empty: &mut u8) -> u8 {
    unsafe { c::sip_dialog_rseq_is_empty(store.as_ptr(), store.len(), used, empty) }
}
