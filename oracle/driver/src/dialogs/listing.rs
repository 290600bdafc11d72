//! The listing of a store. The Rust has none: it is held against the run's own, written from document 01 and docs/LAYOUTS.md.

use super::calls::{lent_for, Call};
use super::image::{self, Parts, Record};
use super::records;
use super::room;
use crate::answer::{lent_as, Answer, Input, Width};
use crate::bounds;
use crate::random::Random;
use crate::rules::{LISTING, LONGEST_LISTED};
use crate::run::{Feed, Operation};
use crate::settings;
use crate::texts::near;
use sip_core::SipUri;
use sip_dialog::DialogStateType;
use std::collections::HashSet;

pub const OPERATIONS: &[Operation] = &[Operation {
    name: LISTING,
    against: "the run's own from 01 (Rust: none)",
    texts: &["store"],
    numbers: &["lent output"],
    outs: &[("length", Width::U64)],
    rows: &[0, 1, 3, 18],
    expect,
    ask: |input, answer| {
        room::lend_empty(answer, input.numbers[0] as usize);
        lent_as(&mut answer.outs[0], |length| {
            port::store::listing(input.settings, input.texts[0], room::lent(&mut answer.bytes), length)
        })
    },
    inputs: each_store,
    fault: "a half of the refresh second goes up",
    distort: |input, answer| {
        if answer.number == 0 {
            let records = image::decode_all(input.texts[0]).expect("listed");
            let _ = room::leave_text(answer, text_of(&records, |seconds| seconds.div_ceil(2)).as_bytes());
        }
    },
}];

/// 30, 1, 3, then the lines; 18 where they don't fit.
fn expect(input: &Input, answer: &mut Answer) -> Result<(), u8> {
    let (store, lent) = (input.texts[0], input.numbers[0] as usize);
    room::lend_empty(answer, lent);
    settings::permitted(input.settings)?;
    bounds::number(LISTING, "store, bytes", store.len());
    if store.len() > LONGEST_LISTED {
        return Err(1);
    }
    let records = image::decode_all(store).ok_or(3)?;
    if has_twice(&records) {
        bounds::met(LISTING, "store", TWICE);
        return Err(3);
    }
    bounds::number(LISTING, "records", records.len());
    if records.len() > 12 {
        bounds::met(LISTING, "records", "over 12");
    }
    let text = text_of(&records, half);
    bounds::number(LISTING, "lent output", lent);
    bounds::room(LISTING, text.len(), lent);
    room::leave_text(answer, text.as_bytes())
}

/// Half of the seconds to the nearest whole second, a half going to the even one (02, request 8).
fn half(seconds: u32) -> u32 {
    (f64::from(seconds) / 2.0).round_ties_even() as u32
}

/// What the tables say of a store that has it.
const TWICE: &str = "one identifier twice";

/// Whether two records have one identifier.
fn has_twice(records: &[Record]) -> bool {
    let ids: HashSet<_> = records.iter().map(|record| record.dialog.id()).collect();
    ids.len() < records.len()
}

/// A line for each record, with the refresh second of its seconds, and the total.
fn text_of(records: &[Record], refresh: fn(u32) -> u32) -> String {
    let optional = |number: Option<u32>| number.map_or("-".to_string(), |number| number.to_string());
    let mut text = String::new();
    for (at, Record { dialog, .. }) in records.iter().enumerate() {
        let state = match dialog.state() {
            DialogStateType::Early => "E",
            DialogStateType::Confirmed => "C",
            DialogStateType::Terminated => "T",
        };
        let side = if dialog.is_uac() { "uac" } else { "uas" };
        let seconds = image::seconds(dialog);
        text += &format!(
            "{} {state} {side} {} {} {} {} {} {}\n",
            at + 1,
            dialog.local_cseq(),
            dialog.remote_cseq(),
            optional(dialog.last_ack_cseq()),
            optional(seconds),
            optional(seconds.map(refresh)),
            dialog.route_set().len()
        );
    }
    text + &format!("total {}\n", records.len())
}

/// Every broken form of a store of two records, then random stores: of few records or many, of a length at the limit, broken,
/// or with one identifier twice; then those with a record of 51 routes.
fn each_store(feed: &mut Feed) {
    records::each_broken(&records::templates().concat(), &mut |kind, store| {
        give(feed, kind, store);
    });
    for turn in 0..feed.calls {
        let random = &mut feed.random;
        match turn % 16 {
            0 => {
                let store = at_limit(random);
                give(feed, "", &store);
            }
            1..4 => {
                let store = some(random);
                let (kind, store) = match store.is_empty() {
                    true => (records::LONGER, vec![0]),
                    false => records::broken(random, &store),
                };
                give(feed, kind, &store);
            }
            4 => {
                let again = [some(random), records::record(random)].concat();
                let store = [again.as_slice(), &again].concat();
                give(feed, "", &store);
            }
            _ => {
                let store = some(random);
                give(feed, "", &store);
            }
        }
    }
    for _ in 0..records::CROWDED_TIMES {
        let store = [some(&mut feed.random), records::crowded(&mut feed.random)].concat();
        give(feed, records::CROWDED, &store);
    }
}

/// Compares the listing of a store that was broken in this way, or in none.
fn give(feed: &mut Feed, kind: &'static str, store: &[u8]) {
    if image::decode_all(store).is_none() {
        bounds::met(LISTING, "store", kind);
    }
    let call = make(&mut feed.random, store);
    feed.compare(&call.input());
}

/// A call with about as much output as the text needs.
pub fn make(random: &mut Random, store: &[u8]) -> Call {
    let mut call = Call::of_image(store);
    let text = image::decode_all(store).map_or(String::new(), |records| text_of(&records, |seconds| seconds / 2));
    call.numbers[0] = lent_for(random, text.len()) as u64;
    call
}

/// A store of some records; their identifiers may meet.
fn some(random: &mut Random) -> Vec<u8> {
    let most = random.pick(&[0, 1, 2, 2, 5, 40]);
    (0..random.below(most + 1))
        .flat_map(|_| records::record(random))
        .collect()
}

/// A store as large as the longest, or nearly: a long target fills it.
fn at_limit(random: &mut Random) -> Vec<u8> {
    let length = near(random, LONGEST_LISTED);
    let first = records::templates().remove(0);
    let mut parts = records::parts(random);
    parts.target = uri(1);
    let dialog = parts.dialog();
    let mut parts = Parts::of(&dialog);
    let shortest = first.len() + image::encode(&dialog).len();
    parts.target = uri(1 + length.saturating_sub(shortest));
    [first, image::encode(&parts.dialog())].concat()
}

/// A readable URI with a host of so many letters.
fn uri(letters: usize) -> SipUri {
    SipUri::parse(&format!("sip:{}", "h".repeat(letters))).expect("readable")
}
