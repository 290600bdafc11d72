//! What a call must answer and leave: refusals 1, 3 and 18 are the run's own checks around the Rust's manager.

use super::book::{dialog_id, kind_of, Book};
use super::call::{Call, CURRENT, NEXT, REMOVE};
use crate::bounds;
use crate::dialogs::creation::limit;
use crate::rules::LONGEST;
use crate::store::call::Id;
use crate::store::expect::store_read;
use crate::store::kind::Damage;
use crate::store::memory::Left;

/// The expected answer of a call that is lent `lent` bytes, on a store whose book this is. `left` holds what the call is
/// given, and then what it leaves.
pub fn expect(book: &mut Result<Book, Damage>, call: &Call, lent: usize, left: &mut Left) {
    left.number = match answer(book, call, lent, left) {
        Ok(said) => {
            left.outs[0] = said.unwrap_or(left.outs[0]);
            0
        }
        Err(number) => number,
    };
}

/// 1 and 3, then what the Rust says. All used bytes are the Rust's, a refused call's too.
fn answer(book: &mut Result<Book, Damage>, call: &Call, lent: usize, left: &mut Left) -> Result<Option<u64>, u8> {
    limit(call.name(), &call.texts())?;
    let book = store_read(book, call.name(), left.store.used, lent)?;
    meet_store(book, call);
    let said = take(book, call, lent);
    book.read_back();
    let bytes = book.bytes();
    if said.is_err() {
        assert!(
            bytes == left.store.used_bytes(),
            "refused, but the Rust changed an entry"
        );
    }
    left.store.write(&bytes);
    said
}

/// Says what the store is like, and what the call's identifier is.
fn meet_store(book: &Book, call: &Call) {
    let entries = book.entries.len();
    bounds::number(call.name(), "entries", entries);
    if entries > 12 {
        bounds::met(call.name(), "entries", "over 12");
    }
    let texts = book.entries.iter().flat_map(|(id, _)| id);
    if texts.map(Vec::len).max() > Some(LONGEST) {
        bounds::met(call.name(), "entries", "with a text over 8,192 bytes");
    }
    if let Some(id) = call.id() {
        bounds::met(call.name(), "identifier", kind_of(id));
    }
}

/// A call that 1 and 3 have let through; the number that it answers, if it does.
fn take(book: &Book, call: &Call, lent: usize) -> Result<Option<u64>, u8> {
    match call {
        Call::Next { id, n } => next(book, id, *n, lent).map(|number| Some(u64::from(number))),
        Call::Current(id) => {
            let number = book.manager.current_rseq(&dialog_id(id)).ok_or(15)?;
            bounds::number(CURRENT, "held number", number);
            Ok(Some(u64::from(number)))
        }
        Call::Remove(id) => {
            meet_place(REMOVE, book, id);
            book.manager.remove(&dialog_id(id));
            Ok(None)
        }
        Call::Len => Ok(Some(book.manager.len() as u64)),
        Call::IsEmpty => Ok(Some(u64::from(book.manager.is_empty()))),
    }
}

/// The Rust's `next_rseq`, whose number source gives n. A new entry that doesn't fit is taken out again: 18.
fn next(book: &Book, id: &Id, n: u32, lent: usize) -> Result<u32, u8> {
    let held = book.held(id);
    let drawn = rand::taken();
    rand::set_next(n);
    let number = book.manager.next_rseq(&dialog_id(id));
    assert_eq!(
        rand::taken() - drawn,
        u64::from(held.is_none()),
        "the Rust draws a number for a new identifier and for no other"
    );
    let after = book.used_after(&Call::Next { id: id.clone(), n });
    bounds::room(NEXT, after, lent);
    if after > lent {
        assert!(held.is_none(), "a held number needs no more room");
        book.manager.remove(&dialog_id(id));
        return Err(18);
    }
    match held {
        None => bounds::number(NEXT, "n, none held", n),
        Some(held) => {
            bounds::number(NEXT, "n, one held", n);
            bounds::number(NEXT, "held number", held);
        }
    }
    meet_place(NEXT, book, id);
    Ok(number)
}

/// Says where the identifier's entry stands among the others, or where a new one would.
fn meet_place(operation: &'static str, book: &Book, id: &Id) {
    let (place, others, what) = match book.place(id) {
        Ok(place) => (place, book.entries.len() - 1, "held, place"),
        Err(place) => (place, book.entries.len(), "not held, place"),
    };
    let side = match (place, others - place) {
        (0, 0) => "the only one",
        (0, _) => "the first",
        (_, 0) => "the last",
        _ => "between others",
    };
    bounds::met(operation, what, side);
}
