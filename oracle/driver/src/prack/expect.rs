//! What a call must answer and leave: refusals 30, 1, 28, 2, 3 and 18 are the run's own checks around the Rust's validator.

use super::book::Book;
use super::call::{Action, Call};
use super::meet;
use super::steps::Said;
use crate::bounds;
use crate::dialogs::creation::limit;
use crate::dialogs::room;
use crate::rules;
use crate::settings;
use crate::store::expect::store_read;
use crate::store::kind::Damage;
use crate::store::memory::Left;

/// The expected answer of a call that is lent `lent` bytes, on a store whose book this is. `left` holds what the call is
/// given, and then what it leaves.
pub fn expect(book: &mut Result<Book, Damage>, call: &Call, lent: usize, left: &mut Left) {
    left.number = match answer(book, call, lent, left) {
        Ok(said) => {
            say(&said, left);
            0
        }
        Err(number) => number,
    };
}

/// 30, 1, 28, 2 and 3, then what the Rust says, and 18 before that where its result doesn't fit. All used bytes are the Rust's,
/// a refused call's too.
fn answer(book: &mut Result<Book, Damage>, call: &Call, lent: usize, left: &mut Left) -> Result<Said, u8> {
    settings::permitted(left.store.settings)?;
    limit(call.name(), &call.texts())?;
    if let Action::Register { method, .. } = call.action {
        bounds::number(call.name(), "method", method);
        (1..=14).contains(&method).then_some(()).ok_or(28)?;
    }
    let headers = rules::headers(call.block())?;
    let book = store_read(book, call.name(), left.store.used, lent)?;
    meet::store(book, call);
    let held = book.held(&call.id).cloned();
    let used_after = book.used_after(call);
    let step = book.take(call, &headers);
    assert_eq!(book.used(), used_after, "the size that was said before");
    if !fits(call, &step.said, used_after, lent, left) {
        book.put_back(&call.id, held);
        assert!(book.bytes() == left.store.used_bytes(), "18, but something changed");
        return Err(18);
    }
    meet::step(book, call, held.as_ref(), &step);
    left.store.write(&book.bytes());
    step.said
}

/// Whether the store and what is written to the output fit.
fn fits(call: &Call, said: &Result<Said, u8>, used_after: usize, lent: usize, left: &mut Left) -> bool {
    if meet::can_grow(call) {
        bounds::room(call.name(), used_after, lent);
    }
    if let Ok(Said::Pending(bytes)) = said {
        let output = room::lent(&mut left.output).len();
        meet::output(call.name(), bytes.len(), output);
        if bytes.len() > output {
            return false;
        }
    }
    if used_after > lent {
        meet::no_room(call.name(), said);
    }
    used_after <= lent
}

/// Leaves what an accepted call answers in the out numbers and the output.
pub fn say(said: &Said, left: &mut Left) {
    match said {
        Said::Nothing => {}
        Said::Rack { rseq, cseq, method } => {
            left.outs = [u64::from(*rseq), u64::from(*cseq), u64::from(*method)];
        }
        Said::Pracked(pracked) => left.outs[0] = u64::from(*pracked),
        Said::Pending(bytes) => {
            room::lent(&mut left.output)[..bytes.len()].copy_from_slice(bytes);
            left.outs[0] = bytes.len() as u64;
        }
    }
}
