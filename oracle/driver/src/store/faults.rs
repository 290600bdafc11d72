//! Planted faults: each changes what the port answered to calls of one operation, and each must be reported.

use super::ask::ask;
use super::call::{
    dialog_id, texts_of, Call, ALL_IDS, COUNT, FIND_BY_CALL_ID, FIND_BY_REQUEST, GET, NEXT, PUT, REMOVE, REQUEST,
    RESPONSE, SET, SWEEP, TERMINATE,
};
use super::dialogs::Dialogs;
use super::memory::{Left, Store};
use super::run;
use crate::dialogs::image::{self, encode, text_field, Parts};
use crate::dialogs::room;
use crate::misreadings::EVERY_SEMICOLON;
use crate::tags::{self, Message, REQUEST_3};
use sip_dialog::Dialog;
use sip_dialog::DialogStateType::{Early, Terminated};

type Scene<'a> = run::Scene<'a, Dialogs>;
type Fault = run::Fault<Dialogs>;

pub const FAULTS: &[Fault] = &[
    Fault {
        name: "put",
        operation: PUT,
        what: "a replacement moves to the end",
        distort: move_replacement,
    },
    Fault {
        name: "put-18",
        operation: PUT,
        what: "18 while bytes are free: an exact fit is refused",
        distort: run::refuse_exact_fit,
    },
    Fault {
        name: "put-16",
        operation: PUT,
        what: "at 10,000 records a replacement is let through",
        distort: let_replacement_through,
    },
    Fault {
        name: "put-17",
        operation: PUT,
        what: "17 counts the record itself",
        distort: count_itself,
    },
    Fault {
        name: "put-51",
        operation: PUT,
        what: "an image with 51 routes is taken",
        distort: |scene, left| {
            if matches!(scene.call, Call::Put(image) if image::is_crowded(image)) {
                left.number = 0;
            }
        },
    },
    Fault {
        name: "put-created",
        operation: PUT,
        what: "created moves on a refused put",
        distort: |_, left| left.store.created = left.store.created.saturating_add(u64::from(left.number != 0)),
    },
    Fault {
        name: "put-byte",
        operation: PUT,
        what: "the byte past the used length is touched",
        distort: |_, left| left.store.touch(left.store.used),
    },
    Fault {
        name: "request",
        operation: REQUEST,
        what: "after the first update the verdict is repeated",
        distort: |scene, left| {
            if scene.updated {
                run::keep(scene, left, 0);
            }
        },
    },
    Fault {
        name: "request-used",
        operation: REQUEST,
        what: "a refused request moves the used length",
        distort: |_, left| left.store.used ^= usize::from(left.number != 0),
    },
    Fault {
        name: "request-created",
        operation: REQUEST,
        what: "a taken request counts as created",
        distort: |_, left| left.store.created = left.store.created.wrapping_add(u64::from(left.number == 0)),
    },
    Fault {
        name: "request-18",
        operation: REQUEST,
        what: "18 while bytes are free: an exact fit is refused",
        distort: run::refuse_exact_fit,
    },
    Fault {
        name: "request-cut",
        operation: REQUEST,
        what: "every semicolon cuts in From and To, as in the Rust",
        distort: misread_tags,
    },
    Fault {
        name: "response",
        operation: RESPONSE,
        what: "the routes stay at the confirming 2xx",
        distort: keep_routes,
    },
    Fault {
        name: "terminate",
        operation: TERMINATE,
        what: "a terminated record is taken out",
        distort: |_, left| {
            if left.number == 0 {
                rewrite(left, |dialogs| dialogs.retain(|dialog| dialog.state() != Terminated));
            }
        },
    },
    Fault {
        name: "terminate-guard",
        operation: TERMINATE,
        what: "the byte before the store is touched",
        distort: |_, left| left.store.touch_before(),
    },
    Fault {
        name: "next_local_cseq",
        operation: NEXT,
        what: "the number before is answered",
        distort: |_, left| left.outs[0] = left.outs[0].wrapping_sub(u64::from(left.number == 0)),
    },
    Fault {
        name: "set_session_expires",
        operation: SET,
        what: "14 answers a least too",
        distort: |_, left| {
            if left.number == 14 {
                left.outs[0] = 90;
            }
        },
    },
    Fault {
        name: "set_session_expires-byte",
        operation: SET,
        what: "the byte past the lent ones is touched",
        distort: |scene, left| left.store.touch(scene.lent),
    },
    Fault {
        name: "remove",
        operation: REMOVE,
        what: "the freed bytes are cleared",
        distort: run::clear_freed,
    },
    Fault {
        name: "remove-terminated",
        operation: REMOVE,
        what: "terminated stays",
        distort: |scene, left| left.store.terminated = scene.before.store.terminated,
    },
    Fault {
        name: "sweep",
        operation: SWEEP,
        what: "the last Terminated record is kept",
        distort: keep_last_terminated,
    },
    Fault {
        name: "get",
        operation: GET,
        what: "another tag finds the first of the Call-ID",
        distort: |scene, left| {
            if let (15, Call::Get(id)) = (left.number, scene.call) {
                ask(&Call::FindByCallId(id[0].clone()), scene.lent, left);
            }
        },
    },
    Fault {
        name: "find_by_call_id",
        operation: FIND_BY_CALL_ID,
        what: "the last of the Call-ID is given",
        distort: find_last,
    },
    Fault {
        name: "find_by_request",
        operation: FIND_BY_REQUEST,
        what: "the tags aren't swapped",
        distort: find_unswapped,
    },
    Fault {
        name: "find_by_request-cut",
        operation: FIND_BY_REQUEST,
        what: "every semicolon cuts in From and To, as in the Rust",
        distort: misread_tags,
    },
    Fault {
        name: "count",
        operation: COUNT,
        what: "Terminated records aren't counted",
        distort: |_, left| {
            let all = dialogs(&left.store);
            let live = all.iter().filter(|dialog| dialog.state() != Terminated);
            if left.number == 0 {
                left.outs[0] = live.count() as u64;
            }
        },
    },
    Fault {
        name: "count-twice",
        operation: COUNT,
        what: "one identifier twice is taken",
        distort: |scene, left| {
            let all = dialogs(&left.store);
            if left.number == 3 && left.store.used <= scene.lent && !all.is_empty() {
                (left.number, left.outs[0]) = (0, all.len() as u64);
            }
        },
    },
    Fault {
        name: "count-lent",
        operation: COUNT,
        what: "a used length over the lent one is taken",
        distort: run::lend_all,
    },
    Fault {
        name: "all_ids",
        operation: ALL_IDS,
        what: "the identifiers are sorted",
        distort: sort_ids,
    },
    Fault {
        name: "all_ids-byte",
        operation: ALL_IDS,
        what: "the byte past the output's length is touched",
        distort: |_, left| {
            let length = left.outs[0] as usize;
            if let (0, Some(byte)) = (left.number, room::lent(&mut left.output).get_mut(length)) {
                *byte ^= 1;
            }
        },
    },
];

/// The dialogs of a store; none where it isn't one.
fn dialogs(store: &Store) -> Vec<Dialog> {
    let records = image::decode_all(store.used_bytes()).unwrap_or_default();
    records.into_iter().map(|record| record.dialog).collect()
}

/// Writes a store's dialogs anew, if they then fit into the memory.
fn rewrite(left: &mut Left, change: impl FnOnce(&mut Vec<Dialog>)) {
    let mut dialogs = dialogs(&left.store);
    change(&mut dialogs);
    let bytes: Vec<u8> = dialogs.iter().flat_map(encode).collect();
    if bytes.len() <= left.store.size() {
        left.store.write(&bytes);
    }
}

/// The dialog that a call puts, and the held one of its identifier.
fn put_and_held(scene: &Scene) -> Option<(Dialog, Dialog)> {
    let Call::Put(image) = scene.call else {
        return None;
    };
    let dialog = image::decode(image)?.dialog;
    let mut held = dialogs(&scene.before.store).into_iter();
    let held = held.find(|held| held.id() == dialog.id())?;
    Some((dialog, held))
}

/// A replacement moves to the end.
fn move_replacement(scene: &Scene, left: &mut Left) {
    if let (0, Some((dialog, _))) = (left.number, put_and_held(scene)) {
        rewrite(left, |dialogs| {
            dialogs.retain(|held| held.id() != dialog.id());
            dialogs.push(dialog);
        });
    }
}

/// A replacement refused by 16 is done all the same.
fn let_replacement_through(scene: &Scene, left: &mut Left) {
    if let (16, Some((dialog, _))) = (left.number, put_and_held(scene)) {
        left.number = 0;
        left.store.created = left.store.created.saturating_add(1);
        rewrite(left, |dialogs| {
            for held in dialogs.iter_mut().filter(|held| held.id() == dialog.id()) {
                *held = dialog.clone();
            }
        });
    }
}

/// An Early record is put over an Early one that is the hundredth.
fn count_itself(scene: &Scene, left: &mut Left) {
    let Some((dialog, _)) = put_and_held(scene).filter(|_| left.number == 0) else {
        return;
    };
    let all = dialogs(&scene.before.store);
    let early = all
        .iter()
        .filter(|held| held.state() == Early && held.id().call_id() == dialog.id().call_id());
    if dialog.state() == Early && early.count() >= 100 {
        run::keep(scene, left, 17);
    }
}

/// The routes of the record are those before the response.
fn keep_routes(scene: &Scene, left: &mut Left) {
    let id = scene.call.id().and_then(dialog_id);
    let before = dialogs(&scene.before.store)
        .into_iter()
        .find(|held| Some(held.id()) == id.as_ref());
    let Some(before) = before.filter(|_| left.number == 0) else {
        return;
    };
    rewrite(left, |dialogs| {
        for held in dialogs.iter_mut().filter(|held| held.id() == before.id()) {
            let mut parts = Parts::of(held);
            parts.routes = before.route_set().to_vec();
            *held = parts.dialog();
        }
    });
}

/// The last Terminated record of the store before stays.
fn keep_last_terminated(scene: &Scene, left: &mut Left) {
    let mut all = dialogs(&scene.before.store);
    let last = all.iter().rposition(|held| held.state() == Terminated);
    if let (0, Some(last)) = (left.number, last) {
        let kept = all[last].id().clone();
        all.retain(|held| held.state() != Terminated || *held.id() == kept);
        rewrite(left, |dialogs| *dialogs = all);
    }
}

/// The last record of the Call-ID is given.
fn find_last(scene: &Scene, left: &mut Left) {
    let mut place = 0;
    for held in dialogs(&scene.before.store).iter().filter(|_| left.number == 0) {
        let length = encode(held).len();
        if scene.call.texts()[0].1 == held.id().call_id().as_bytes() {
            [left.outs[0], left.outs[1]] = [place, length as u64];
        }
        place += length as u64;
    }
}

/// The tag of From is taken for the local one.
fn find_unswapped(scene: &Scene, left: &mut Left) {
    let block = scene.call.block();
    if matches!(left.number, 0 | 15) {
        if let Some(parts) = tags::parts_by(&REQUEST_3, block, Message::Request) {
            *left = scene.before.clone();
            ask(&Call::Get(texts_of(&tags::id_of(block, &parts))), scene.lent, left);
        }
    }
}

/// The port is asked with the tags that every semicolon cuts.
fn misread_tags(scene: &Scene, left: &mut Left) {
    if matches!(left.number, 1..=3) {
        return;
    }
    let block = tags::with_tags_by(&EVERY_SEMICOLON, scene.call.block());
    let call = match scene.call {
        Call::Request { method, .. } => Call::Request {
            method: method.clone(),
            block,
        },
        _ => Call::FindByRequest(block),
    };
    *left = scene.before.clone();
    ask(&call, scene.lent, left);
}

/// The identifiers are written in the order of their texts.
fn sort_ids(scene: &Scene, left: &mut Left) {
    let all = dialogs(&scene.before.store);
    let texts =
        |held: &Dialog| [held.id().call_id(), held.id().local_tag(), held.id().remote_tag()].map(str::to_string);
    let mut ids: Vec<[String; 3]> = all.iter().map(texts).collect();
    ids.sort();
    if left.number == 0 {
        let bytes: Vec<u8> = ids.iter().flatten().flat_map(|text| text_field(text)).collect();
        room::lent(&mut left.output)[..bytes.len()].copy_from_slice(&bytes);
    }
}
