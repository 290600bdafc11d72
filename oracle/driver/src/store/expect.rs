//! What a call must answer and leave: refusals 30, 1, 2, 3 and 18 are the run's own checks around the Rust's manager.

use super::book::{change, Book};
use super::call::{dialog_id, Call, ALL_IDS, FIND_BY_CALL_ID, PUT, REMOVE, SWEEP};
use super::kind::Damage;
use super::memory::Left;
use crate::bounds;
use crate::dialogs::creation::limit;
use crate::dialogs::image::{self, encode, state_name};
use crate::dialogs::updates::{meet_target, Sizes};
use crate::dialogs::{records, room};
use crate::rules;
use crate::settings;
use port::Settings;
use sip_core::Headers;
use sip_dialog::{Dialog, DialogId, DialogStateType};
use std::collections::HashSet;

/// The expected answer of a call that is lent `lent` bytes, on a store whose book this is. `left` holds what the call is
/// given, and then what it leaves.
pub fn expect(book: &mut Result<Book, Damage>, call: &Call, lent: usize, left: &mut Left) {
    left.number = answer(book, call, lent, left).err().unwrap_or(0);
}

/// 30, 1, 2 and 3, then what the Rust says. All used bytes and both counts are the Rust's, a refused call's too.
fn answer(book: &mut Result<Book, Damage>, call: &Call, lent: usize, left: &mut Left) -> Result<(), u8> {
    settings::permitted(left.store.settings)?;
    limit(call.name(), &call.texts())?;
    let headers = rules::headers(call.block())?;
    let book = store_read(book, call.name(), left.store.used, lent)?;
    meet_records(call.name(), book.order.len());
    let said = take(book, call, &headers, lent, left);
    book.read_back();
    let bytes = book.images.concat();
    if said.is_err() {
        assert!(
            bytes == left.store.used_bytes(),
            "refused, but the Rust changed a record"
        );
    }
    left.store.write(&bytes);
    [left.store.created, left.store.terminated] = book.counts();
    said
}

/// Says how many records there are.
fn meet_records(operation: &'static str, records: usize) {
    bounds::number(operation, "records", records);
    if records > 12 {
        bounds::met(operation, "records", "over 12");
    }
}

/// The book of a store that is lent so many bytes; 3 where its used length is over them, or its bytes aren't a store.
pub fn store_read<'a, B>(
    book: &'a mut Result<B, Damage>,
    operation: &'static str,
    used: usize,
    lent: usize,
) -> Result<&'a mut B, u8> {
    meet_lent(operation, used, lent);
    if used > lent {
        return Err(3);
    }
    book.as_mut().map_err(|damage| {
        bounds::met(operation, "store", damage);
        3
    })
}

/// Says how the used length compares with the lent one.
fn meet_lent(operation: &'static str, used: usize, lent: usize) {
    bounds::number(operation, "lent bytes", lent);
    match used as i128 - lent as i128 {
        0 => bounds::met(operation, "used bytes", "as many as lent"),
        1 => bounds::met(operation, "used bytes", "one more than lent"),
        _ if used == usize::MAX => bounds::met(operation, "used bytes", "the largest number"),
        _ => {}
    }
}

/// A call that 30, 1, 2 and 3 have let through.
fn take(book: &mut Book, call: &Call, headers: &Headers, lent: usize, left: &mut Left) -> Result<(), u8> {
    match call {
        Call::Put(image) => put(book, image, lent),
        Call::Remove(id) => remove(book, &dialog_id(id).ok_or(15)?),
        Call::Sweep => {
            sweep(book);
            Ok(())
        }
        Call::Get(_) | Call::FindByRequest(_) => {
            let id = book.named(call, headers).ok_or(15)?;
            give_place(book, held_at(book, &id)?, left)
        }
        Call::FindByCallId(call_id) => give_place(book, first_of(book, call_id)?, left),
        Call::Count => {
            left.outs[0] = book.rust.manager.count() as u64;
            Ok(())
        }
        Call::AllIds(_) => all_ids(book, left),
        Call::Request { .. } | Call::Response { .. } | Call::Terminate(_) | Call::Next(_) | Call::Set { .. } => {
            round(book, call, headers, lent, left)
        }
    }
}

/// The Rust's `insert`. It refuses as the run's own rules do, but where only another site's cap refuses. Where the result doesn't fit
/// it is undone: 18.
fn put(book: &mut Book, image: &[u8], lent: usize) -> Result<(), u8> {
    if image::is_crowded(image) {
        bounds::met(PUT, "image", records::CROWDED);
    }
    let dialog = image::decode(image).ok_or(3)?.dialog;
    meet_put(book, &dialog);
    let id = dialog.id().clone();
    let held = book.dialog(&id);
    let after = book.used() - held.as_ref().map_or(0, |held| encode(held).len()) + image.len();
    let own = judged(book, &dialog);
    if own != Err(17) || book.settings.early_cap == Settings::RUST.early_cap {
        assert_eq!(
            book.rust.insert(dialog),
            own,
            "the run's own rules of a put, and the Rust's"
        );
    }
    own?;
    bounds::room(PUT, after, lent);
    if after > lent {
        book.rust.undo_insert(&id, held);
        return Err(18);
    }
    if held.is_none() {
        book.order.push(id);
    }
    Ok(())
}

/// The number rules of a put with the site's Early cap: 16, 17.
fn judged(book: &Book, dialog: &Dialog) -> Result<(), u8> {
    if book.order.len() >= 10_000 {
        return Err(16);
    }
    let is_full = other_early(book, dialog) >= book.settings.early_cap as usize;
    match dialog.state() {
        DialogStateType::Early if is_full => Err(17),
        _ => Ok(()),
    }
}

/// How many other Early records there are of a dialog's Call-ID.
pub fn other_early(book: &Book, dialog: &Dialog) -> usize {
    let others = book.order.iter().filter(|id| {
        let of_call_id = id.call_id() == dialog.id().call_id() && *id != dialog.id();
        of_call_id
            && book
                .dialog(id)
                .is_some_and(|other| other.state() == DialogStateType::Early)
    });
    others.count()
}

/// Says what a call meets at another site, by the operation's name there.
pub fn meet_site(operation: &'static str, book: &Book, call: &Call) {
    match call {
        Call::Put(image) => {
            let dialog = image::decode(image).map(|record| record.dialog);
            if let Some(dialog) = dialog.filter(|dialog| dialog.state() == DialogStateType::Early) {
                settings::meet_put(operation, book.settings, other_early(book, &dialog));
            }
        }
        Call::Request { method, block } => {
            let headers = rules::headers(block).ok();
            let named = bounds::quietly(|| book.named(call, &headers?));
            let remote = named.and_then(|id| book.dialog(&id)).map(|dialog| dialog.remote_cseq());
            settings::meet_request(operation, book.settings, [method, block], remote);
        }
        _ => {}
    }
}

/// Says what a put met.
fn meet_put(book: &Book, dialog: &Dialog) {
    let held = book.dialog(dialog.id());
    let place = match &held {
        None => "none",
        Some(held) => state_name(held.state()),
    };
    bounds::met(PUT, "in the place of", place);
    if book.order.len() == 10_000 {
        bounds::met(PUT, "at 10,000 in the place of", place);
    }
    bounds::number(PUT, "created", book.counts()[0]);
    let what = match (dialog.state(), held.map(|held| held.state())) {
        (DialogStateType::Early, None) => "new Early, other Early",
        (DialogStateType::Early, Some(DialogStateType::Early)) => "Early over Early, other Early",
        (DialogStateType::Early, Some(_)) => "Early over another, other Early",
        _ => "no Early, other Early",
    };
    bounds::number(PUT, what, other_early(book, dialog));
}

/// The Rust's `remove`.
fn remove(book: &mut Book, id: &DialogId) -> Result<(), u8> {
    let place = book.order.iter().position(|held| held == id);
    bounds::number(REMOVE, "terminated", book.counts()[1]);
    let removed = book.rust.manager.remove(id).ok_or(15)?;
    let place = place.expect("the list has the record");
    assert!(
        encode(&removed) == book.images[place],
        "the Rust removed another record"
    );
    let side = match (place, book.order.len() - 1 - place) {
        (0, 0) => "the only one",
        (0, _) => "the first",
        (_, 0) => "the last",
        _ => "between others",
    };
    bounds::met(REMOVE, "record", side);
    book.order.remove(place);
    Ok(())
}

/// The Rust's `cleanup_terminated`.
fn sweep(book: &mut Book) {
    let before = book.order.len();
    book.rust.manager.cleanup_terminated();
    let manager = &book.rust.manager;
    book.order.retain(|id| manager.get(id).is_some());
    bounds::number(SWEEP, "swept", before - book.order.len());
    if before > 0 && book.order.is_empty() {
        bounds::met(SWEEP, "swept", "all");
    }
}

/// Where in the list the record is that the Rust holds under an identifier.
fn held_at(book: &Book, id: &DialogId) -> Result<usize, u8> {
    let dialog = book.dialog(id).ok_or(15)?;
    let place = book.order.iter().position(|held| held == id);
    let place = place.expect("the list has the record");
    assert!(encode(&dialog) == book.images[place], "the Rust gives another record");
    Ok(place)
}

/// The first of a Call-ID in the list. The Rust's pick is arbitrary: it must be one of them.
fn first_of(book: &Book, call_id: &[u8]) -> Result<usize, u8> {
    let text = std::str::from_utf8(call_id).map_err(|_| 15)?;
    let of_text = |place: &usize| book.order[*place].call_id() == text;
    let places: Vec<usize> = (0..book.order.len()).filter(of_text).collect();
    bounds::number(FIND_BY_CALL_ID, "of the Call-ID", places.len());
    let picked = book.rust.manager.find_by_call_id(text);
    match &picked {
        None => assert!(places.is_empty(), "the Rust finds none"),
        Some(dialog) => assert!(
            places.iter().any(|place| book.order[*place] == *dialog.id()),
            "the Rust finds another"
        ),
    }
    places.first().copied().ok_or(15)
}

/// Place and length of a record in the store.
fn give_place(book: &Book, place: usize, left: &mut Left) -> Result<(), u8> {
    let before: usize = book.images[..place].iter().map(Vec::len).sum();
    [left.outs[0], left.outs[1]] = [before as u64, book.images[place].len() as u64];
    Ok(())
}

/// All identifiers, in the list's order. The Rust's are the same as a set.
fn all_ids(book: &Book, left: &mut Left) -> Result<(), u8> {
    let said: HashSet<DialogId> = book.rust.manager.all_ids().into_iter().collect();
    let listed: HashSet<DialogId> = book.order.iter().cloned().collect();
    assert!(said == listed, "the Rust has other identifiers than the list");
    let bytes = book.all_ids();
    let lent = room::lent(&mut left.output);
    bounds::number(ALL_IDS, "lent output", lent.len());
    bounds::room(ALL_IDS, bytes.len(), lent.len());
    lent.get_mut(..bytes.len()).ok_or(18)?.copy_from_slice(&bytes);
    left.outs[0] = bytes.len() as u64;
    Ok(())
}

/// The Rust's round on the record that a call names: `remove`, the method, `insert`, after a refused method too. Where the
/// result doesn't fit, the dialog goes back as it was: 18.
fn round(book: &mut Book, call: &Call, headers: &Headers, lent: usize, left: &mut Left) -> Result<(), u8> {
    let id = book.named(call, headers).ok_or(15)?;
    let before = book.rust.take_out(&id).ok_or(15)?;
    bounds::met(call.name(), "state", state_name(before.state()));
    let mut dialog = before.clone();
    let said = change(call, book.settings, headers, &mut dialog);
    let sizes = Sizes {
        before: book.used(),
        after: book.used() - encode(&before).len() + encode(&dialog).len(),
        lent,
    };
    let fits = sizes.after <= lent;
    let taken = book.rust.put_back(if fits { dialog.clone() } else { before.clone() });
    bounds::met(
        call.name(),
        "put back by the Rust's insert",
        if taken { "yes" } else { "no" },
    );
    if said == Err(13) {
        left.outs[0] = 90;
    }
    let number = said?;
    bounds::room(call.name(), sizes.after, lent);
    if !fits {
        return Err(18);
    }
    bounds::number(call.name(), "accepted, records", book.order.len());
    if matches!(call, Call::Request { .. } | Call::Response { .. }) {
        meet_target(call.name(), sizes, [&before, &dialog]);
    }
    left.outs[0] = number.unwrap_or(left.outs[0]);
    Ok(())
}
