//! Times of calls on a store of N records, beside the Rust's `DialogManager` with the same N dialogs. Each call is timed
//! alone, after what the one before it changed has been put back; the clock's own time is taken off.

use super::by_identifier;
use super::dialogs::{made, parsed_request};
use super::tables::{table, timed, Plan, Side, Sides};
use crate::dialogs::encode;
use port::store::{self, Place, Store};
use port::Settings;
use sip_core::Request;
use sip_dialog::storage::{hold, set_remote_cseq};
use sip_dialog::{Dialog, DialogManager};
use std::hint::black_box;
use std::time::Duration;

/// How many records the store has. With 10,000 neither side takes a put, and the Rust's update of a record is one.
const SIZES: [usize; 5] = [1, 10, 100, 1000, 10_000];
const SIZES_OF_PUTS: [usize; 5] = [1, 10, 100, 1000, 9999];

/// A put, the request entry, the calls by identifier, the look-ups, a sweep, the count and all identifiers.
pub fn stores(plan: &Plan) {
    if let Plan::Times = plan {
        println!(
            "\nStores. A port call reads the whole store, as its contract asks, and remembers nothing between calls."
        );
        println!("The Rust has dialogs, not bytes, in a stand-in of `dashmap` without its locks. Both are asked for the record");
        println!(
            "in the middle; in a sweep every tenth record is Terminated. Each call is timed alone, and no buffer is"
        );
        println!("cleared for it: its store is as the call before found it, and output holds what that one wrote.");
    }
    changes(plan);
    let look_ups: [(&str, Sides<Both>); 6] = [
        ("find_by_request", find_by_request),
        ("find_by_call_id", find_by_call_id),
        ("get", by_identifier::get),
        ("count", count),
        ("all_ids", all_ids),
        ("sweep", sweep),
    ];
    for (title, sides) in look_ups {
        table(plan, [title, THINGS], &SIZES, Both::new, sides);
    }
}

/// The calls that change a record or bring one in.
fn changes(plan: &Plan) {
    let changes: [(&str, Sides<Both>); 8] = [
        ("put of a new Confirmed record", |both| put(both, 200)),
        ("put of a new Early record", |both| put(both, 180)),
        ("request, INVITE", request),
        ("response, 200 on a Confirmed record", by_identifier::response),
        ("next_local_cseq", by_identifier::next_local_cseq),
        ("set_session_expires", by_identifier::set_session_expires),
        ("terminate", by_identifier::terminate),
        ("remove", by_identifier::remove),
    ];
    for (title, sides) in changes {
        table(plan, [title, THINGS], &SIZES_OF_PUTS, Both::new, sides);
    }
}

/// What these stores hold.
const THINGS: &str = "records";

/// The same dialogs as a store with room for one more, and in a manager; the block of a request that names the middle one.
pub struct Both {
    pub size: usize,
    pub bytes: Vec<u8>,
    pub used: usize,
    pub manager: DialogManager,
    pub block: Vec<u8>,
    parsed: Request,
}

/// Room for one more record.
const ROOM: usize = 1000;

impl Both {
    /// So many Confirmed dialogs.
    fn new(size: usize) -> Both {
        let dialogs: Vec<Dialog> = (0..size).map(|number| dialog(number, 200)).collect();
        let mut bytes: Vec<u8> = dialogs.iter().flat_map(encode).collect();
        let used = bytes.len();
        bytes.resize(used + ROOM, 0);
        let manager = DialogManager::new();
        for dialog in dialogs {
            assert!(manager.insert(dialog).is_ok(), "inserted");
        }
        let block = block(size / 2);
        let parsed = parsed_request(&block);
        Both {
            size,
            bytes,
            used,
            manager,
            block,
            parsed,
        }
    }
}

/// The block of the `number`th call: of its first messages, and of a later request.
fn block(number: usize) -> Vec<u8> {
    format!(
        "Via: SIP/2.0/UDP pc33.example.org;branch=z9hG4bK776asdhds\r\nCall-ID: {number:08}@pc33.example.org\r\n\
        From: <sip:alice@example.org>;tag=1928301774\r\nTo: <sip:bob@example.com>;tag=a6c85cf\r\nCSeq: 8 INVITE\r\n\
        Contact: <sip:alice@192.0.2.4>\r\nRecord-Route: <sip:p1.example.com;lr>\r\n"
    )
    .into_bytes()
}

/// The dialog of that block, as it was before the later request.
pub fn dialog(number: usize, status: u16) -> Dialog {
    let mut dialog = made(&block(number), status);
    set_remote_cseq(&mut dialog, 7);
    dialog
}

/// A new record is put, and taken back between calls.
fn put(both: &Both, status: u16) -> Vec<Side<'_>> {
    let new = dialog(both.size, status);
    let image = encode(&new);
    let mut bytes = both.bytes.clone();
    vec![
        (
            "Rattle, of an image",
            Box::new(move || {
                let (mut used, mut created) = (both.used, 0);
                let lent = Store {
                    bytes: &mut bytes,
                    used: &mut used,
                };
                timed(|| {
                    assert_eq!(
                        store::put(Settings::RUST, black_box(&image), lent, &mut created),
                        0,
                        "accepted"
                    )
                })
            }),
        ),
        (
            "Rust insert, of a dialog",
            Box::new(move || {
                both.manager.remove(new.id());
                let dialog = new.clone();
                timed(|| assert!(both.manager.insert(black_box(dialog)).is_ok(), "accepted"))
            }),
        ),
    ]
}

/// An INVITE on the record in the middle, which is put back between calls.
fn request(both: &Both) -> Vec<Side<'_>> {
    let mut bytes = both.bytes.clone();
    let before = dialog(both.size / 2, 200);
    let same = before.clone();
    vec![
        (
            "Rattle",
            Box::new(move || {
                bytes.copy_from_slice(&both.bytes);
                let mut used = both.used;
                let lent = Store {
                    bytes: &mut bytes,
                    used: &mut used,
                };
                timed(|| {
                    assert_eq!(
                        store::request(Settings::RUST, b"INVITE", black_box(&both.block), lent),
                        0,
                        "taken"
                    )
                })
            }),
        ),
        (
            "stand-in parse, Rust",
            Box::new(move || {
                hold(&both.manager, before.clone());
                timed(|| update(&both.manager, &parsed_request(black_box(&both.block))))
            }),
        ),
        (
            "Rust, already parsed",
            Box::new(move || {
                hold(&both.manager, same.clone());
                timed(|| update(&both.manager, black_box(&both.parsed)))
            }),
        ),
    ]
}

/// What a user of the Rust does with a request: a copy of the dialog is found, changed and inserted.
fn update(manager: &DialogManager, request: &Request) {
    let mut dialog = manager.find_by_request(request).expect("found");
    assert!(dialog.update_from_request(request).is_ok(), "taken");
    assert!(manager.insert(dialog).is_ok(), "inserted");
}

/// The place of the record in the middle, or a copy of its dialog.
fn find_by_request(both: &Both) -> Vec<Side<'_>> {
    vec![
        (
            "Rattle",
            Box::new(|| {
                find(|found| {
                    store::find_by_request(Settings::RUST, black_box(&both.block), &both.bytes, both.used, found)
                })
            }),
        ),
        (
            "stand-in parse, Rust",
            Box::new(|| {
                timed(|| {
                    let request = parsed_request(black_box(&both.block));
                    both.manager.find_by_request(&request).expect("found")
                })
            }),
        ),
        (
            "Rust, already parsed",
            Box::new(|| timed(|| both.manager.find_by_request(black_box(&both.parsed)).expect("found"))),
        ),
    ]
}

/// The same by its Call-ID, which no other has.
fn find_by_call_id(both: &Both) -> Vec<Side<'_>> {
    let of_middle = || dialog(both.size / 2, 200).id().call_id().to_string();
    let (call_id, text) = (of_middle(), of_middle());
    vec![
        (
            "Rattle",
            Box::new(move || {
                find(|found| {
                    store::find_by_call_id(
                        Settings::RUST,
                        black_box(call_id.as_bytes()),
                        &both.bytes,
                        both.used,
                        found,
                    )
                })
            }),
        ),
        (
            "Rust",
            Box::new(move || timed(|| both.manager.find_by_call_id(black_box(&text)).expect("found"))),
        ),
    ]
}

/// The time of a look-up of the port.
pub fn find(look_up: impl FnOnce(&mut Place) -> u8) -> Duration {
    let mut found = Place { place: 0, length: 0 };
    let time = timed(|| assert_eq!(look_up(&mut found), 0, "found"));
    black_box(found);
    time
}

/// How many records there are.
fn count(both: &Both) -> Vec<Side<'_>> {
    vec![
        (
            "Rattle",
            Box::new(|| {
                let mut number = 0;
                timed(|| {
                    assert_eq!(
                        store::count(Settings::RUST, black_box(&both.bytes), both.used, &mut number),
                        0,
                        "read"
                    )
                })
            }),
        ),
        ("Rust count", Box::new(|| timed(|| black_box(&both.manager).count()))),
    ]
}

/// The identifiers of all records: written one after another, or copied into a list.
fn all_ids(both: &Both) -> Vec<Side<'_>> {
    let mut out = vec![0; both.used];
    vec![
        (
            "Rattle",
            Box::new(move || {
                let mut length = 0;
                timed(|| {
                    assert_eq!(
                        store::all_ids(Settings::RUST, &both.bytes, both.used, &mut out, &mut length),
                        0,
                        "written"
                    )
                })
            }),
        ),
        (
            "Rust all_ids",
            Box::new(|| timed(|| black_box(&both.manager).all_ids())),
        ),
    ]
}

/// Every tenth record is Terminated and swept; they are put back between calls.
fn sweep(both: &Both) -> Vec<Side<'_>> {
    let mut before = both.bytes.clone();
    let mut ended = Vec::new();
    for number in (0..both.size).step_by(10) {
        let mut dialog = dialog(number, 200);
        let place = number * encode(&dialog).len();
        dialog.terminate();
        let image = encode(&dialog);
        before[place..place + image.len()].copy_from_slice(&image);
        ended.push(dialog);
    }
    let mut bytes = before.clone();
    vec![
        (
            "Rattle",
            Box::new(move || {
                bytes.copy_from_slice(&before);
                let mut used = both.used;
                let lent = Store {
                    bytes: &mut bytes,
                    used: &mut used,
                };
                let time = timed(|| assert_eq!(store::sweep(Settings::RUST, lent), 0, "accepted"));
                assert!(used < both.used, "swept");
                time
            }),
        ),
        (
            "Rust cleanup_terminated",
            Box::new(move || {
                for dialog in &ended {
                    hold(&both.manager, dialog.clone());
                }
                let time = timed(|| both.manager.cleanup_terminated());
                assert!(both.manager.count() < both.size, "swept");
                time
            }),
        ),
    ]
}
