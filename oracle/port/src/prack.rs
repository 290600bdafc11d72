//! The C functions on a PRACK store.

use crate::c;
use crate::store::Store;
use crate::{Rack, Settings};

/// A response that was sent, as it is registered.
#[derive(Debug, Clone, Copy)]
pub struct Response {
    pub rseq: u32,
    pub cseq: u32,
    pub method: u8,
    pub code: u16,
}

/// Registers a response of a dialog at a time.
pub fn register(settings: Settings, id: &[u8], response: Response, time: u64, store: Store) -> u8 {
    unsafe {
        c::sip_dialog_prack_register(
            settings,
            id.as_ptr(),
            id.len(),
            response.rseq,
            response.cseq,
            response.method,
            response.code,
            time,
            store.bytes.as_mut_ptr(),
            store.bytes.len(),
            store.used,
        )
    }
}

/// Holds the RAck of a block against the dialog's list.
pub fn validate(settings: Settings, id: &[u8], block: &[u8], time: u64, store: Store, rack: &mut Rack) -> u8 {
    unsafe {
        c::sip_dialog_prack_validate(
            settings,
            id.as_ptr(),
            id.len(),
            block.as_ptr(),
            block.len(),
            time,
            store.bytes.as_mut_ptr(),
            store.bytes.len(),
            store.used,
            &mut rack.rseq,
            &mut rack.cseq,
            &mut rack.method,
        )
    }
}

/// Whether a response is acknowledged.
pub fn is_pracked(settings: Settings, id: &[u8], rseq: u32, store: &[u8], used: usize, pracked: &mut u8) -> u8 {
    unsafe {
        c::sip_dialog_prack_is_pracked(
            settings,
            id.as_ptr(),
            id.len(),
            rseq,
            store.as_ptr(),
            store.len(),
            used,
            pracked,
        )
    }
}

/// The responses of a dialog that aren't acknowledged, into the lent output.
pub fn get_pending(settings: Settings, id: &[u8], time: u64, store: Store, out: &mut [u8], written: &mut usize) -> u8 {
    unsafe {
        c::sip_dialog_prack_get_pending(
            settings,
            id.as_ptr(),
            id.len(),
            time,
            store.bytes.as_mut_ptr(),
            store.bytes.len(),
            store.used,
            out.as_mut_ptr(),
            out.len(),
            written,
        )
    }
}

/// Drops all that is held for a dialog.
pub fn remove_dialog(settings: Settings, id: &[u8], store: Store) -> u8 {
    unsafe {
        c::sip_dialog_prack_remove_dialog(
            settings,
            id.as_ptr(),
            id.len(),
            store.bytes.as_mut_ptr(),
            store.bytes.len(),
            store.used,
        )
    }
}

/// Drops the acknowledged responses of an RSeq.
pub fn remove_pracked(settings: Settings, id: &[u8], rseq: u32, store: Store) -> u8 {
    unsafe {
        c::sip_dialog_prack_remove_pracked(
            settings,
            id.as_ptr(),
            id.len(),
            rseq,
            store.bytes.as_mut_ptr(),
            store.bytes.len(),
            store.used,
        )
    }
}
