//! Lists at the two limits of a store: 10,000 records, and 100 Early records of one Call-ID; and images with a route too many.

use super::call::{texts_of, Call};
use super::dialogs::Dialogs;
use super::lists::List;
use super::run::{Run, Sides};
use crate::dialogs::image::Parts;
use crate::dialogs::{encode, records};
use crate::random::Random;
use port::Settings;
use sip_core::SipUri;
use sip_dialog::DialogStateType::{self, Confirmed, Early, Terminated};
use sip_dialog::{Dialog, DialogId};

/// The most records, and at the Rust's figures the most Early ones of a Call-ID.
const MOST: usize = 10_000;
const MOST_EARLY: usize = 100;

/// How often each list is gone through; at another site.
const TIMES: usize = 25;
const TIMES_ELSEWHERE: usize = 5;

/// As often as in this run.
fn times(run: &Run<Dialogs>) -> usize {
    match run.site == Settings::RUST {
        true => TIMES,
        false => TIMES_ELSEWHERE,
    }
}

/// The identifier of the `number`th record of a Call-ID.
fn id(call_id: &str, number: usize) -> DialogId {
    DialogId::unchecked_new(call_id, format!("l{number}"), "r")
}

/// A short record.
pub fn record(id: &DialogId, state: DialogStateType) -> Dialog {
    let uri = || SipUri::parse("sip:h").expect("readable");
    let parts = Parts {
        id: id.clone(),
        state,
        target: uri(),
        local_uri: uri(),
        remote_uri: uri(),
        local: 1,
        remote: 7,
        last_ack: None,
        seconds: Some(90),
        refresher: None,
        routes: Vec::new(),
        is_uac: false,
    };
    parts.dialog()
}

/// A put of it.
pub fn put(id: &DialogId, state: DialogStateType) -> Call {
    Call::Put(encode(&record(id, state)))
}

/// A request that names a record and is above its remote number.
pub fn request(id: &DialogId, number: usize) -> Call {
    let (call_id, from, to) = (id.call_id(), id.remote_tag(), id.local_tag());
    let block = format!("CSeq:{number} A\r\nCall-ID:{call_id}\r\nFrom:;tag={from}\r\nTo:;tag={to}\r\n");
    Call::Request {
        method: b"INVITE".to_vec(),
        block: block.into(),
    }
}

/// A response of this status.
fn response(id: &DialogId, status: u16) -> Call {
    Call::Response {
        id: texts_of(id),
        status,
        block: Vec::new(),
    }
}

/// A store of so many records: Early ones of one Call-ID first, then Confirmed ones, three of each Call-ID.
fn many(early: usize, all: usize) -> Vec<u8> {
    let early_ones = (0..early).map(|number| record(&id("e", number), Early));
    let others = (early..all).map(|number| record(&other(number), Confirmed));
    early_ones.chain(others).flat_map(|dialog| encode(&dialog)).collect()
}

/// The identifier of the `number`th record of such a store that isn't Early.
fn other(number: usize) -> DialogId {
    id(&format!("c{}", number / 3), number)
}

/// A store of 9,999 records is filled to 10,000 and emptied again; one of 10,001 is handed in.
pub fn at_most_records(run: &mut Run<Dialogs>, random: &mut Random) {
    let mut list = List::new(run, random, &many(MOST_EARLY, MOST - 1), [0, 0]);
    for turn in 0..TIMES {
        let held = other(MOST_EARLY + list.random.below(MOST - 1 - MOST_EARLY));
        if !full_and_back(&mut list, &held, turn) {
            return;
        }
    }
    let mut list = List::new(run, random, &many(MOST_EARLY + 1, MOST + 1), [0, 0]);
    for turn in 0..TIMES {
        let held = other(MOST_EARLY + 1 + turn);
        let refused = [put(&id("new", turn), Confirmed), put(&held, Confirmed)];
        if !list.each(&refused) || !list.each_roomy(&rounds(&held, turn)) {
            return;
        }
    }
}

/// Puts on 10,000 records that are handed in: 16.
pub fn full(run: &mut Run<Dialogs>, random: &mut Random) {
    let mut list = List::new(run, random, &many(1, MOST), [0, 0]);
    for turn in 0..2 * TIMES {
        let refused = [
            put(&id("new", turn), Confirmed),
            put(&other(1 + turn), Confirmed),
            put(&id("e", 1), Early),
        ];
        if !list.each(&refused) {
            return;
        }
    }
}

/// Requests around the site's CSeq jump, on two records; each that is taken is the next one's ground.
pub fn each_jump(run: &mut Run<Dialogs>, random: &mut Random) {
    let jump = run.site.cseq_jump as usize;
    let [held, other] = [id("c", 0), id("c", 1)];
    for _ in 0..TIMES_ELSEWHERE {
        let mut list = List::new(run, random, &[], [0, 0]);
        let mut remote = 7;
        let mut calls = vec![put(&held, Confirmed), put(&other, Confirmed)];
        for above in [jump, jump.max(2) - 1, 1, jump] {
            calls.extend([jump + 1, 2 * jump, 0].map(|over| request(&held, remote + over)));
            remote += above;
            calls.push(request(&held, remote));
            calls.push(request(&other, remote));
        }
        if !list.each_roomy(&calls) {
            return;
        }
    }
}

/// From 9,999 records to 10,000 and back, twice; at 10,000 every operation.
fn full_and_back(list: &mut List<Dialogs>, held: &DialogId, turn: usize) -> bool {
    let (first, second) = (id("first", turn), id("second", turn));
    let up = [put(held, Confirmed), put(&first, Confirmed)];
    let refused = [
        put(&second, Confirmed),
        put(held, Confirmed),
        put(&id("e", turn), Early),
        put(&id("e", MOST_EARLY), Early),
        Call::Put(records::templates()[0][1..].to_vec()),
    ];
    let down = [
        put(&first, Confirmed),
        Call::Sweep,
        put(&second, Confirmed),
        Call::Remove(texts_of(&second)),
    ];
    list.each_roomy(&up)
        && list.each(&refused)
        && list.each_roomy(&readings(held, 20 * MOST))
        && list.each_roomy(&rounds(&first, turn))
        && list.each_roomy(&down)
}

/// A round of each kind on a record, which it leaves Terminated.
pub fn rounds(held: &DialogId, turn: usize) -> [Call; 5] {
    [
        request(held, 8),
        response(held, 200),
        Call::Next(texts_of(held)),
        Call::Set {
            id: texts_of(held),
            seconds: 90 + turn as u64,
        },
        Call::Terminate(texts_of(held)),
    ]
}

/// A reading of each kind; that of all identifiers is lent so many bytes of output.
fn readings(held: &DialogId, output: usize) -> [Call; 5] {
    [
        Call::Get(texts_of(held)),
        Call::FindByCallId(held.call_id().into()),
        Call::FindByRequest(request(held, 8).block().to_vec()),
        Call::Count,
        Call::AllIds(output),
    ]
}

/// An image with 51 routes is put: into an empty store, beside records, and in the place of one. A store that has one is handed
/// to every operation.
pub fn too_many_routes(run: &mut Run<Dialogs>, random: &mut Random) {
    let held = id("c", 0);
    for turn in 0..records::CROWDED_TIMES {
        let image = records::crowded(random);
        let mut parts = Parts::of(&record(&held, Confirmed));
        parts.routes = vec![parts.target.clone(); 51];
        let in_place = Call::Put(encode(&parts.dialog()));
        for used in [Vec::new(), [encode(&record(&held, Confirmed)), many(1, 3)].concat()] {
            let mut list = List::new(run, random, &used, [0, 0]);
            if !list.each_roomy(&[Call::Put(image.clone()), in_place.clone()]) {
                return;
            }
        }
        let bytes = [encode(&record(&held, Confirmed)), image].concat();
        let others = [put(&held, Confirmed), Call::Remove(texts_of(&held)), Call::Sweep];
        let calls = rounds(&held, turn).into_iter().chain(readings(&held, 20)).chain(others);
        for call in calls {
            let mut sides = Sides::damaged(random, run.site, &bytes, [0, 0], records::CROWDED);
            let lent = sides.store.size();
            run.compare(&mut sides, &call, lent);
        }
    }
}

/// Early records of one Call-ID are put up to the limit, from an empty store; a store of 101 is handed in.
pub fn at_most_early(run: &mut Run<Dialogs>, random: &mut Random) {
    let most = run.site.early_cap as usize;
    let times = times(run);
    for turn in 0..times {
        let mut list = List::new(run, random, &[], [0, 0]);
        let up: Vec<Call> = (0..most - 1).map(|number| put(&id("e", number), Early)).collect();
        if !list.each_roomy(&up) || !around_early(&mut list, turn) {
            return;
        }
    }
    let mut list = List::new(run, random, &many(most + 1, most + 9), [0, 0]);
    for turn in 0..times {
        let early = id("e", turn % (most + 1));
        let calls = [
            put(&early, Early),
            put(&id("e", most + 1), Early),
            request(&early, 8),
            Call::Next(texts_of(&early)),
        ];
        if !list.each(&calls) {
            return;
        }
    }
}

/// From one Early record of a Call-ID less than the cap to the cap, one less, and to the cap again.
fn around_early(list: &mut List<Dialogs>, turn: usize) -> bool {
    let [confirmed, terminated, last, more] = [200, 201, 202, 203].map(|number| id("e", number));
    let before = list.sides.store.settings.early_cap as usize - 1;
    let early = id("e", list.random.below(before.max(1)));
    let up = [
        put(&confirmed, Confirmed),
        put(&terminated, Terminated),
        put(&last, Early),
    ];
    let at_limit = [
        put(&more, Early),
        put(&confirmed, Early),
        put(&terminated, Early),
        put(&early, Early),
        put(&last, Early),
        put(&id("e", 204), Confirmed),
        put(&id("e", 205), Terminated),
        put(&id("d", 0), Early),
    ];
    let one_less = [
        response(&early, 200),
        Call::Terminate(texts_of(&early)),
        Call::Remove(texts_of(&early)),
        put(&early, Confirmed),
    ];
    let again = [
        one_less[turn % one_less.len()].clone(),
        put(&confirmed, Early),
        put(&more, Early),
        Call::Sweep,
        put(&more, Early),
    ];
    list.each_roomy(&up) && list.each(&at_limit) && list.each_roomy(&again)
}
