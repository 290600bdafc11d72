//! The port's side: one call of its C function, given the first bytes of the store's memory.

use super::call::Call;
use crate::answer::lent_as;
use crate::store::ask::texts;
use crate::store::memory::Left;
use port::rseq;

/// Asks the port, which is lent `length` bytes; `left` holds what the call is given, and then what it leaves.
pub fn ask(call: &Call, length: usize, left: &mut Left) {
    let lent = left.store.lend(length);
    let out = &mut left.outs[0];
    left.number = match call {
        Call::Next { id, n } => lent_as(out, |number| rseq::next(texts(id), *n, lent, number)),
        Call::Current(id) => lent_as(out, |number| rseq::current(texts(id), lent.bytes, *lent.used, number)),
        Call::Remove(id) => rseq::remove(texts(id), lent),
        Call::Len => lent_as(out, |count| rseq::len(lent.bytes, *lent.used, count)),
        Call::IsEmpty => lent_as(out, |empty| rseq::is_empty(lent.bytes, *lent.used, empty)),
    };
}
