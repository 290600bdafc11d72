//! Calls with every choice of causes to be refused at once, which show the order in which they are tried. Each is on a store
//! of two records, handed in.

use super::call::{texts_of, Call, Id};
use super::dialogs::Dialogs;
use super::run::{Run, Sides};
use crate::dialogs::{image, records};
use crate::random::Random;
use crate::rules::LONGEST;
use crate::texts::each_choice;
use sip_dialog::Dialog;

/// The records' images and dialogs.
struct Two {
    bytes: Vec<u8>,
    dialogs: Vec<Dialog>,
}

/// Whole, cut off by one byte, or lent one byte less than is used.
const STORES: usize = 3;

/// Much room, or none behind the used bytes.
const ROOMS: usize = 2;

/// All of them.
pub fn each(run: &mut Run<Dialogs>, random: &mut Random) {
    let bytes = records::templates().concat();
    let records = image::decode_all(&bytes).expect("two records");
    let two = Two {
        bytes,
        dialogs: records.into_iter().map(|record| record.dialog).collect(),
    };
    let mut give = |call: &Call, store: usize, room: usize| give(run, random, &two.bytes, call, [store, room]);
    each_put(&mut give);
    for dialog in &two.dialogs {
        each_request(dialog, &mut give);
        each_response(dialog, &mut give);
        each_by_id(dialog, &mut give);
        each_find(dialog, &mut give);
    }
}

/// Takes a call, and the choices of its store and its room.
type Give<'a> = &'a mut dyn FnMut(&Call, usize, usize);

/// Compares a call on the store so chosen.
fn give(run: &mut Run<Dialogs>, random: &mut Random, bytes: &[u8], call: &Call, [store, room]: [usize; 2]) {
    let used = bytes.len() - usize::from(store == 1);
    let mut sides = Sides::damaged(random, run.site, &bytes[..used], [7, 7], records::CUT);
    let lent = match (store, room) {
        (2, _) => used - 1,
        (_, 0) => sides.store.size(),
        _ => used,
    };
    run.compare(&mut sides, call, lent);
}

/// Puts: 3 by the store, 3 by the image, 18. (16 and 17 need more records.) Then the calls that are given no text.
fn each_put(give: Give) {
    let images = images_to_put();
    each_choice(&[images.len(), STORES, ROOMS], &mut |choice| {
        give(&Call::Put(images[choice[0]].clone()), choice[1], choice[2]);
        give(&Call::Sweep, choice[1], choice[2]);
        give(&Call::Count, choice[1], choice[2]);
        give(&Call::AllIds([20, 0][choice[2]]), choice[1], choice[2]);
    });
}

/// A record of the store, the same with an interval, one that is new, one cut off, one with a byte behind it, and none.
fn images_to_put() -> [Vec<u8>; 6] {
    let held = records::templates().remove(0);
    let mut longer = [held.as_slice(), b"\0\0\0\x5a"].concat();
    longer[0] |= 4;
    let mut new = held.clone();
    new[5] = b'2';
    let good = [&held, &longer, &new].map(|image| image::decode(image).is_some());
    assert_eq!(good, [true; 3], "these are images");
    let cut = held[..held.len() - 1].to_vec();
    let behind = [held.as_slice(), b"\0"].concat();
    [held, longer, new, cut, behind, Vec::new()]
}

/// The lines by which a request names the record, names none, or has no tag.
fn naming(dialog: &Dialog) -> [String; 3] {
    let id = dialog.id();
    let (call_id, from, to) = (id.call_id(), id.remote_tag(), id.local_tag());
    [
        format!("Call-ID:{call_id}\r\nFrom:;tag={from}\r\nTo:;tag={to}\r\n"),
        format!("Call-ID:{call_id}\r\nFrom:;tag={to}\r\nTo:;tag={from}\r\n"),
        format!("Call-ID:{call_id}\r\nFrom:;tag={from}\r\nTo:x\r\n"),
    ]
}

/// Good and bad ends of a block, and one that makes it too long.
fn ends() -> [String; 3] {
    [String::new(), "\r\n".to_string(), "X:\r\n".repeat(LONGEST)]
}

/// Requests: 1, 2, 3, 15, 4, 9, 10, 11 or 12, 18.
fn each_request(dialog: &Dialog, give: Give) {
    let methods = [b"BYE".to_vec(), b"ACK".to_vec(), vec![b'A'; LONGEST + 1]];
    let remote = u64::from(dialog.remote_cseq());
    let line = |number: u64| format!("CSeq:{number} A\r\n");
    let numbers = [remote + 1, remote, remote + 1001, 0, 1 << 31].map(line);
    let numbers: Vec<String> = numbers.into_iter().chain([String::new()]).collect();
    let contacts = ["Contact:<sip:a>\r\n", "Contact:<sip:a;longer-than-before>\r\n"];
    let counts = [3, 3, STORES, 3, numbers.len(), 2, ROOMS];
    each_choice(&counts, &mut |choice| {
        let block = [
            &naming(dialog)[choice[3]],
            &numbers[choice[4]],
            contacts[choice[5]],
            &ends()[choice[1]],
        ];
        let call = Call::Request {
            method: methods[choice[0]].clone(),
            block: block.concat().into(),
        };
        give(&call, choice[2], choice[6]);
    });
}

/// The record's identifier, one that no record has, or one with its `choice`th part too long.
fn id(dialog: &Dialog, choice: usize) -> Id {
    let mut id = texts_of(dialog.id());
    match choice {
        0 => {}
        1 => id.swap(1, 2),
        part => id[part - 2] = vec![b'x'; LONGEST + 1],
    }
    id
}

/// Responses: 1, 2, 3, 15, 18.
fn each_response(dialog: &Dialog, give: Give) {
    let longer = ["", "Session-Expires:7\r\nContact:<sip:a;longer-than-before>\r\n"];
    each_choice(&[5, 3, STORES, 2, ROOMS], &mut |choice| {
        let call = Call::Response {
            id: id(dialog, choice[0]),
            status: 200,
            block: [longer[choice[3]], &ends()[choice[1]]].concat().into(),
        };
        give(&call, choice[2], choice[4]);
    });
}

/// The other calls by identifier: 1, 3, 15, 13 or 14, 18.
fn each_by_id(dialog: &Dialog, give: Give) {
    each_choice(&[5, STORES, ROOMS], &mut |choice| {
        let id = id(dialog, choice[0]);
        let mut calls = vec![
            Call::Terminate(id.clone()),
            Call::Next(id.clone()),
            Call::Remove(id.clone()),
            Call::Get(id.clone()),
        ];
        calls.extend([89, 90, 86_401].map(|seconds| Call::Set {
            id: id.clone(),
            seconds,
        }));
        for call in calls {
            give(&call, choice[1], choice[2]);
        }
    });
}

/// The look-ups by Call-ID and by request: 1, 2, 3, 15.
fn each_find(dialog: &Dialog, give: Give) {
    let call_ids = [id(dialog, 0), id(dialog, 2), Id::default()].map(|id| id[0].clone());
    each_choice(&[3, 3, STORES, ROOMS], &mut |choice| {
        give(&Call::FindByCallId(call_ids[choice[0]].clone()), choice[2], choice[3]);
        let block = [naming(dialog)[choice[0]].as_str(), &ends()[choice[1]]].concat();
        give(&Call::FindByRequest(block.into()), choice[2], choice[3]);
    });
}
