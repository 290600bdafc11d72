//! The port's side: one call of its C function, given the first bytes of the store's memory.

use super::call::{Call, Id};
use super::memory::Left;
use crate::answer::lent_as;
use crate::dialogs::room;
use port::store::{self, Place};

/// Asks the port, which is lent `length` bytes; `left` holds what the call is given, and then what it leaves.
pub fn ask(call: &Call, length: usize, left: &mut Left) {
    let [mut created, mut terminated] = [left.store.created, left.store.terminated];
    let settings = left.store.settings;
    let lent = left.store.lend(length);
    let outs = &mut left.outs;
    left.number = match call {
        Call::Put(image) => store::put(settings, image, lent, &mut created),
        Call::Request { method, block } => store::request(settings, method, block, lent),
        Call::Response { id, status, block } => store::response(settings, texts(id), *status, block, lent),
        Call::Terminate(id) => store::terminate(settings, texts(id), lent),
        Call::Next(id) => lent_as(&mut outs[0], |raised| {
            store::next_local_cseq(settings, texts(id), lent, raised)
        }),
        Call::Set { id, seconds } => store::set_session_expires(settings, texts(id), *seconds, lent, &mut outs[0]),
        Call::Remove(id) => store::remove(settings, texts(id), lent, &mut terminated),
        Call::Sweep => store::sweep(settings, lent),
        Call::Get(id) => find(outs, |found| {
            store::get(settings, texts(id), lent.bytes, *lent.used, found)
        }),
        Call::FindByCallId(call_id) => find(outs, |found| {
            store::find_by_call_id(settings, call_id, lent.bytes, *lent.used, found)
        }),
        Call::FindByRequest(block) => find(outs, |found| {
            store::find_by_request(settings, block, lent.bytes, *lent.used, found)
        }),
        Call::Count => lent_as(&mut outs[0], |count| {
            store::count(settings, lent.bytes, *lent.used, count)
        }),
        Call::AllIds(_) => lent_as(&mut outs[0], |length| {
            store::all_ids(settings, lent.bytes, *lent.used, room::lent(&mut left.output), length)
        }),
    };
    [left.store.created, left.store.terminated] = [created, terminated];
}

/// An identifier's texts, lent.
pub fn texts(id: &Id) -> store::Id<'_> {
    [&id[0], &id[1], &id[2]]
}

/// Lends the first two out numbers as a place.
fn find(outs: &mut [u64; 3], ask: impl FnOnce(&mut Place) -> u8) -> u8 {
    let [place, length, _] = outs.map(|out| out as usize);
    let mut found = Place { place, length };
    let number = ask(&mut found);
    [outs[0], outs[1]] = [found.place as u64, found.length as u64];
    number
}
