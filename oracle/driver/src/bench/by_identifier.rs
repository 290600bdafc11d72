//! The calls on a store of records that name one by its identifier, beside the Rust's round: `get`, the dialog's method,
//! `insert`.

use super::dialogs::parsed_response;
use super::store::{dialog, find, Both};
use super::tables::{timed, Side};
use port::store::{self, Id, Store};
use port::Settings;
use sip_dialog::storage::hold;
use sip_dialog::{Dialog, DialogManager};
use std::hint::black_box;
use std::time::Duration;

/// The three texts of the middle record.
struct Texts([Vec<u8>; 3]);

impl Texts {
    /// Those of a dialog.
    fn of(dialog: &Dialog) -> Texts {
        let id = dialog.id();
        Texts([id.call_id(), id.local_tag(), id.remote_tag()].map(|text| text.as_bytes().to_vec()))
    }

    /// The texts, lent.
    fn lent(&self) -> Id<'_> {
        [&self.0[0], &self.0[1], &self.0[2]]
    }
}

/// The time of a call of the port on a copy of the store.
fn ported(both: &Both, bytes: &mut [u8], call: impl FnOnce(Store) -> u8) -> Duration {
    bytes.copy_from_slice(&both.bytes);
    let mut used = both.used;
    let lent = Store { bytes, used: &mut used };
    timed(|| assert_eq!(call(lent), 0, "accepted"))
}

/// The Rust's round on the record of an identifier.
fn round(manager: &DialogManager, of: &Dialog, change: impl FnOnce(&mut Dialog)) {
    let mut dialog = manager.get(black_box(of.id())).expect("held");
    change(&mut dialog);
    assert!(manager.insert(dialog).is_ok(), "inserted");
}

/// Both sides of a change of the middle record, which is put back between calls.
fn changed<'a>(both: &'a Both, port: fn(Id, Store) -> u8, rust: fn(&mut Dialog)) -> Vec<Side<'a>> {
    let mut bytes = both.bytes.clone();
    let before = dialog(both.size / 2, 200);
    let texts = Texts::of(&before);
    vec![
        (
            "Rattle",
            Box::new(move || ported(both, &mut bytes, |lent| port(black_box(texts.lent()), lent))),
        ),
        (
            "Rust get, method, insert",
            Box::new(move || {
                hold(&both.manager, before.clone());
                timed(|| round(&both.manager, &before, rust))
            }),
        ),
    ]
}

/// The next local number.
pub fn next_local_cseq(both: &Both) -> Vec<Side<'_>> {
    let port = |id: Id, lent: Store| store::next_local_cseq(Settings::RUST, id, lent, &mut 0);
    changed(both, port, |dialog| {
        black_box(dialog.next_local_cseq());
    })
}

/// Another session interval.
pub fn set_session_expires(both: &Both) -> Vec<Side<'_>> {
    let port = |id: Id, lent: Store| store::set_session_expires(Settings::RUST, id, SECONDS, lent, &mut 0);
    let rust = |dialog: &mut Dialog| assert!(dialog.set_session_expires(Duration::from_secs(SECONDS)).is_ok(), "set");
    changed(both, port, rust)
}

/// The interval that is set.
const SECONDS: u64 = 1800;

/// The record becomes Terminated.
pub fn terminate(both: &Both) -> Vec<Side<'_>> {
    let port = |id: Id, lent: Store| store::terminate(Settings::RUST, id, lent);
    changed(both, port, Dialog::terminate)
}

/// A 200 on the record, which is Confirmed.
pub fn response(both: &Both) -> Vec<Side<'_>> {
    let mut bytes = both.bytes.clone();
    let [of_text, of_parsed] = [0, 1].map(|_| dialog(both.size / 2, 200));
    let texts = Texts::of(&of_text);
    let parsed = parsed_response(&both.block);
    vec![
        (
            "Rattle",
            Box::new(move || {
                ported(both, &mut bytes, |lent| {
                    store::response(Settings::RUST, texts.lent(), 200, black_box(&both.block), lent)
                })
            }),
        ),
        (
            "stand-in parse, Rust",
            Box::new(move || {
                hold(&both.manager, of_text.clone());
                timed(|| {
                    let response = parsed_response(black_box(&both.block));
                    round(&both.manager, &of_text, |dialog| dialog.update_from_response(&response));
                })
            }),
        ),
        (
            "Rust, already parsed",
            Box::new(move || {
                hold(&both.manager, of_parsed.clone());
                timed(|| {
                    round(&both.manager, &of_parsed, |dialog| {
                        dialog.update_from_response(black_box(&parsed))
                    })
                })
            }),
        ),
    ]
}

/// The record is taken out, and put back between calls.
pub fn remove(both: &Both) -> Vec<Side<'_>> {
    let mut bytes = both.bytes.clone();
    let held = dialog(both.size / 2, 200);
    let texts = Texts::of(&held);
    vec![
        (
            "Rattle",
            Box::new(move || {
                ported(both, &mut bytes, |lent| {
                    store::remove(Settings::RUST, black_box(texts.lent()), lent, &mut 0)
                })
            }),
        ),
        (
            "Rust remove",
            Box::new(move || {
                hold(&both.manager, held.clone());
                timed(|| both.manager.remove(black_box(held.id())).expect("held"))
            }),
        ),
    ]
}

/// The place of the record, or a copy of its dialog.
pub fn get(both: &Both) -> Vec<Side<'_>> {
    let held = dialog(both.size / 2, 200);
    let texts = Texts::of(&held);
    vec![
        (
            "Rattle",
            Box::new(move || {
                find(|found| store::get(Settings::RUST, black_box(texts.lent()), &both.bytes, both.used, found))
            }),
        ),
        (
            "Rust get",
            Box::new(move || {
                hold(&both.manager, held.clone());
                timed(|| both.manager.get(black_box(held.id())).expect("held"))
            }),
        ),
    ]
}
