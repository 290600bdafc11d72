//! The port's side: one call of its C function, given the first bytes of the store's memory.

use super::call::{Action, Call};
use crate::answer::{lent_as, lent_as_rack};
use crate::dialogs::room;
use crate::store::memory::Left;
use port::prack::{self, Response};

/// Asks the port, which is lent `length` bytes; `left` holds what the call is given, and then what it leaves.
pub fn ask(call: &Call, length: usize, left: &mut Left) {
    let settings = left.store.settings;
    let lent = left.store.lend(length);
    let outs = &mut left.outs;
    let id = &call.id;
    left.number = match call.action {
        Action::Register {
            rseq,
            cseq,
            method,
            code,
            time,
        } => {
            let response = Response {
                rseq,
                cseq,
                method,
                code,
            };
            prack::register(settings, id, response, time, lent)
        }
        Action::Validate { ref block, time } => {
            lent_as_rack(outs, |rack| prack::validate(settings, id, block, time, lent, rack))
        }
        Action::IsPracked { rseq } => lent_as(&mut outs[0], |pracked| {
            prack::is_pracked(settings, id, rseq, lent.bytes, *lent.used, pracked)
        }),
        Action::GetPending { time, .. } => lent_as(&mut outs[0], |written| {
            prack::get_pending(settings, id, time, lent, room::lent(&mut left.output), written)
        }),
        Action::RemoveDialog => prack::remove_dialog(settings, id, lent),
        Action::RemovePracked { rseq } => prack::remove_pracked(settings, id, rseq, lent),
    };
}
