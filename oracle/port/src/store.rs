//! The C functions on a store of records.

use crate::c;
use crate::Settings;

/// An identifier's three texts: Call-ID, local tag, remote tag.
pub type Id<'a> = [&'a [u8]; 3];

/// Where a record lies in its store.
#[derive(Debug, Clone, Copy)]
pub struct Place {
    pub place: usize,
    pub length: usize,
}

/// A store as it is lent to be changed: its bytes, of which the first `used` are its records.
pub struct Store<'a> {
    pub bytes: &'a mut [u8],
    pub used: &'a mut usize,
}

/// Puts the record of an image into the store.
pub fn put(settings: Settings, image: &[u8], store: Store, created: &mut u64) -> u8 {
    unsafe {
        c::sip_dialog_put(
            settings,
            image.as_ptr(),
            image.len(),
            store.bytes.as_mut_ptr(),
            store.bytes.len(),
            store.used,
            created,
        )
    }
}

/// A request on the record that it names.
pub fn request(settings: Settings, method: &[u8], block: &[u8], store: Store) -> u8 {
    unsafe {
        c::sip_dialog_request(
            settings,
            method.as_ptr(),
            method.len(),
            block.as_ptr(),
            block.len(),
            store.bytes.as_mut_ptr(),
            store.bytes.len(),
            store.used,
        )
    }
}

/// A response on the record of an identifier.
pub fn response(settings: Settings, [call_id, local, remote]: Id, status: u16, block: &[u8], store: Store) -> u8 {
    unsafe {
        c::sip_dialog_response(
            settings,
            call_id.as_ptr(),
            call_id.len(),
            local.as_ptr(),
            local.len(),
            remote.as_ptr(),
            remote.len(),
            status,
            block.as_ptr(),
            block.len(),
            store.bytes.as_mut_ptr(),
            store.bytes.len(),
            store.used,
        )
    }
}

/// The record of an identifier becomes Terminated.
pub fn terminate(settings: Settings, [call_id, local, remote]: Id, store: Store) -> u8 {
    unsafe {
        c::sip_dialog_terminate(
            settings,
            call_id.as_ptr(),
            call_id.len(),
            local.as_ptr(),
            local.len(),
            remote.as_ptr(),
            remote.len(),
            store.bytes.as_mut_ptr(),
            store.bytes.len(),
            store.used,
        )
    }
}

/// The local number of an identifier's record rises by one.
pub fn next_local_cseq(settings: Settings, [call_id, local, remote]: Id, store: Store, number: &mut u32) -> u8 {
    unsafe {
        c::sip_dialog_next_local_cseq(
            settings,
            call_id.as_ptr(),
            call_id.len(),
            local.as_ptr(),
            local.len(),
            remote.as_ptr(),
            remote.len(),
            store.bytes.as_mut_ptr(),
            store.bytes.len(),
            store.used,
            number,
        )
    }
}

/// Another session interval for the record of an identifier.
pub fn set_session_expires(
    settings: Settings,
    [call_id, local, remote]: Id,
    seconds: u64,
    store: Store,
    least: &mut u64,
) -> u8 {
    unsafe {
        c::sip_dialog_set_session_expires(
            settings,
            call_id.as_ptr(),
            call_id.len(),
            local.as_ptr(),
            local.len(),
            remote.as_ptr(),
            remote.len(),
            seconds,
            store.bytes.as_mut_ptr(),
            store.bytes.len(),
            store.used,
            least,
        )
    }
}

/// Takes the record of an identifier out.
pub fn remove(settings: Settings, [call_id, local, remote]: Id, store: Store, terminated: &mut u64) -> u8 {
    unsafe {
        c::sip_dialog_remove(
            settings,
            call_id.as_ptr(),
            call_id.len(),
            local.as_ptr(),
            local.len(),
            remote.as_ptr(),
            remote.len(),
            store.bytes.as_mut_ptr(),
            store.bytes.len(),
            store.used,
            terminated,
        )
    }
}

/// Takes all Terminated records out.
pub fn sweep(settings: Settings, store: Store) -> u8 {
    unsafe { c::sip_dialog_sweep(settings, store.bytes.as_mut_ptr(), store.bytes.len(), store.used) }
}

/// The record of an identifier.
pub fn get(settings: Settings, [call_id, local, remote]: Id, store: &[u8], used: usize, found: &mut Place) -> u8 {
    unsafe {
        c::sip_dialog_get(
            settings,
            call_id.as_ptr(),
            call_id.len(),
            local.as_ptr(),
            local.len(),
            remote.as_ptr(),
            remote.len(),
            store.as_ptr(),
            store.len(),
            used,
            &mut found.place,
            &mut found.length,
        )
    }
}

/// The first record of a Call-ID.
pub fn find_by_call_id(settings: Settings, call_id: &[u8], store: &[u8], used: usize, found: &mut Place) -> u8 {
    unsafe {
        c::sip_dialog_find_by_call_id(
            settings,
            call_id.as_ptr(),
            call_id.len(),
            store.as_ptr(),
            store.len(),
            used,
            &mut found.place,
            &mut found.length,
        )
    }
}

/// The record that a request names.
pub fn find_by_request(settings: Settings, block: &[u8], store: &[u8], used: usize, found: &mut Place) -> u8 {
    unsafe {
        c::sip_dialog_find_by_request(
            settings,
            block.as_ptr(),
            block.len(),
            store.as_ptr(),
            store.len(),
            used,
            &mut found.place,
            &mut found.length,
        )
    }
}

/// How many records a store holds.
pub fn count(settings: Settings, store: &[u8], used: usize, count: &mut usize) -> u8 {
    unsafe { c::sip_dialog_count(settings, store.as_ptr(), store.len(), used, count) }
}

/// The listing of a store's used bytes, into the lent output.
pub fn listing(settings: Settings, store: &[u8], out: &mut [u8], length: &mut usize) -> u8 {
    unsafe {
        c::sip_dialog_listing(
            settings,
            store.as_ptr(),
            store.len(),
            out.as_mut_ptr(),
            out.len(),
            length,
        )
    }
}

/// The identifiers of all records, into the lent output.
pub fn all_ids(settings: Settings, store: &[u8], used: usize, out: &mut [u8], length: &mut usize) -> u8 {
    unsafe {
        c::sip_dialog_all_ids(
            settings,
            store.as_ptr(),
            store.len(),
            used,
            out.as_mut_ptr(),
            out.len(),
            length,
        )
    }
}
