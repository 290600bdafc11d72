//! Calls on a PRACK store, beside the Rust's `PrackValidator`.

use super::numbers::{ported, texts, ROOM, SIZES, THINGS};
use super::tables::{table, timed, Plan, Side, Sides};
use crate::messages::request;
use crate::prack::layout::{encode, Entry, Response as Held};
use port::prack::{self, Response};
use port::store::Store;
use port::{Rack, Settings};
use sip_core::{Headers, Method, Request};
use sip_dialog::prack_validator::PrackValidator;
use stand_in_std::time::set_clock;
use std::hint::black_box;

/// Times registering, a PRACK, the two questions, and the two removals.
pub fn pracks(plan: &Plan) {
    let calls: [(&str, Sides<Pracks>); 6] = [
        ("prack_register of a second response", register),
        ("prack_validate, accepted", validate),
        ("prack_is_pracked of a response that waits", is_pracked),
        ("prack_get_pending of one response", get_pending),
        ("prack_remove_dialog", remove_dialog),
        ("prack_remove_pracked", remove_pracked),
    ];
    for (title, sides) in calls {
        table(plan, [title, THINGS], &SIZES, Pracks::new, sides);
    }
}

/// The time of all calls: nothing is due.
const TIME: u64 = 5_000_000_000;

/// A response as it is registered, and the block of its PRACK.
const RESPONSE: Response = Response {
    rseq: 70_001,
    cseq: 8,
    method: 1,
    code: 183,
};
const BLOCK: &[u8] =
    b"Via: SIP/2.0/UDP pc33.example.org;branch=z9hG4bK776asdhds\r\nCall-ID: a84b4c76e66710@pc33.example.org\r\n\
    From: <sip:alice@example.org>;tag=1928301774\r\nTo: <sip:bob@example.com>;tag=a6c85cf\r\nCSeq: 9 PRACK\r\n\
    RAck: 70001 8 INVITE\r\n";

/// The same lists as a store with room, and in a validator.
pub struct Pracks {
    middle: String,
    bytes: Vec<u8>,
    used: usize,
    validator: PrackValidator,
    parsed: Request,
}

impl Pracks {
    /// Lists of so many dialogs. The store is written by the run's own encoder: registering them would read it each time.
    fn new(size: usize) -> Pracks {
        let ids: Vec<String> = (0..size).map(|number| texts(number).concat()).collect();
        set_clock(TIME);
        let validator = PrackValidator::new();
        for id in &ids {
            rust_register(&validator, id, RESPONSE);
        }
        let mut bytes = encode(&ids.iter().map(|id| entry(id)).collect::<Vec<Entry>>());
        let used = bytes.len();
        bytes.resize(used + ROOM, 0);
        Pracks {
            middle: ids[size / 2].clone(),
            bytes,
            used,
            validator,
            parsed: parsed(BLOCK),
        }
    }

    /// The Rust's list of the middle dialog, as it was.
    fn put_back(&self) {
        self.validator.remove_dialog(&self.middle);
        rust_register(&self.validator, &self.middle, RESPONSE);
    }
}

/// What is held for a dialog after its response was registered.
fn entry(id: &str) -> Entry {
    let Response {
        rseq,
        cseq,
        method,
        code,
    } = RESPONSE;
    Entry {
        id: id.as_bytes().to_vec(),
        cleaned_at: TIME,
        list: Some(vec![Held {
            rseq,
            cseq,
            method,
            code,
            acknowledged: false,
            registered_at: TIME,
        }]),
    }
}

/// The Rust's register.
fn rust_register(validator: &PrackValidator, id: &str, response: Response) {
    let Response { rseq, cseq, code, .. } = response;
    validator.register_reliable_provisional(id, rseq, cseq, Method::Invite, code);
}

/// A PRACK with this block.
fn parsed(block: &[u8]) -> Request {
    request(Method::Prack, Headers::parse(block).expect("a block"))
}

/// A second response is registered, and taken back between calls.
fn register(both: &Pracks) -> Vec<Side<'_>> {
    let second = Response {
        rseq: 70_002,
        ..RESPONSE
    };
    let mut bytes = both.bytes.clone();
    vec![
        (
            "Rattle",
            Box::new(move || {
                ported(&both.bytes, both.used, &mut bytes, |lent| {
                    prack::register(Settings::RUST, black_box(both.middle.as_bytes()), second, TIME, lent)
                })
            }),
        ),
        (
            "Rust",
            Box::new(move || {
                both.put_back();
                timed(|| rust_register(&both.validator, black_box(&both.middle), second))
            }),
        ),
    ]
}

/// The response of the middle dialog is acknowledged, and put back between calls.
fn validate(both: &Pracks) -> Vec<Side<'_>> {
    let mut bytes = both.bytes.clone();
    let accept = |prack: &Request| {
        let said = both.validator.validate_prack(black_box(&both.middle), prack);
        assert!(said.is_ok(), "accepted");
    };
    vec![
        (
            "Rattle",
            Box::new(move || {
                let mut rack = Rack {
                    rseq: 0,
                    cseq: 0,
                    method: 0,
                };
                ported(&both.bytes, both.used, &mut bytes, |lent| {
                    prack::validate(
                        Settings::RUST,
                        both.middle.as_bytes(),
                        black_box(BLOCK),
                        TIME,
                        lent,
                        &mut rack,
                    )
                })
            }),
        ),
        (
            "stand-in parse, Rust",
            Box::new(move || {
                both.put_back();
                timed(|| accept(&parsed(black_box(BLOCK))))
            }),
        ),
        (
            "Rust, already parsed",
            Box::new(move || {
                both.put_back();
                timed(|| accept(black_box(&both.parsed)))
            }),
        ),
    ]
}

/// What waits of the middle dialog; nothing changes.
fn get_pending(both: &Pracks) -> Vec<Side<'_>> {
    let mut bytes = both.bytes.clone();
    vec![
        (
            "Rattle",
            Box::new(move || {
                let (mut out, mut written) = ([0; 60], 0);
                ported(&both.bytes, both.used, &mut bytes, |lent| {
                    prack::get_pending(
                        Settings::RUST,
                        black_box(both.middle.as_bytes()),
                        TIME,
                        lent,
                        &mut out,
                        &mut written,
                    )
                })
            }),
        ),
        (
            "Rust",
            Box::new(move || timed(|| both.validator.get_pending(black_box(&both.middle)))),
        ),
    ]
}

/// Whether the response of the middle dialog is acknowledged; it isn't.
fn is_pracked(both: &Pracks) -> Vec<Side<'_>> {
    vec![
        (
            "Rattle",
            Box::new(move || {
                let (id, mut pracked) = (black_box(both.middle.as_bytes()), 1);
                timed(|| {
                    let number =
                        prack::is_pracked(Settings::RUST, id, RESPONSE.rseq, &both.bytes, both.used, &mut pracked);
                    assert_eq!((number, pracked), (0, 0), "waits");
                })
            }),
        ),
        (
            "Rust",
            Box::new(move || {
                both.put_back();
                timed(|| {
                    assert!(
                        !both.validator.is_pracked(black_box(&both.middle), RESPONSE.rseq),
                        "waits"
                    )
                })
            }),
        ),
    ]
}

/// The middle dialog is removed, and put back between calls.
fn remove_dialog(both: &Pracks) -> Vec<Side<'_>> {
    let mut bytes = both.bytes.clone();
    vec![
        (
            "Rattle",
            Box::new(move || {
                ported(&both.bytes, both.used, &mut bytes, |lent| {
                    prack::remove_dialog(Settings::RUST, black_box(both.middle.as_bytes()), lent)
                })
            }),
        ),
        (
            "Rust",
            Box::new(move || {
                both.put_back();
                timed(|| both.validator.remove_dialog(black_box(&both.middle)))
            }),
        ),
    ]
}

/// The response of the middle dialog, acknowledged before, is removed, and put back between calls.
fn remove_pracked(both: &Pracks) -> Vec<Side<'_>> {
    let mut before = both.bytes.clone();
    let mut used = both.used;
    let mut rack = Rack {
        rseq: 0,
        cseq: 0,
        method: 0,
    };
    let lent = Store {
        bytes: &mut before,
        used: &mut used,
    };
    let accepted = prack::validate(Settings::RUST, both.middle.as_bytes(), BLOCK, TIME, lent, &mut rack);
    assert_eq!(accepted, 0, "acknowledged");
    let mut bytes = before.clone();
    vec![
        (
            "Rattle",
            Box::new(move || {
                ported(&before, used, &mut bytes, |lent| {
                    prack::remove_pracked(Settings::RUST, black_box(both.middle.as_bytes()), RESPONSE.rseq, lent)
                })
            }),
        ),
        (
            "Rust",
            Box::new(move || {
                both.put_back();
                let said = both.validator.validate_prack(&both.middle, &both.parsed);
                assert!(said.is_ok(), "acknowledged");
                timed(|| both.validator.remove_pracked(black_box(&both.middle), RESPONSE.rseq))
            }),
        ),
    ]
}
