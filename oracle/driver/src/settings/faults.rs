//! Planted faults: each changes what the port answered at another site, and each must be reported. Those on stores ask the port with
//! other settings than the call was given.

use super::images::base_of;
use super::{figures, name_of, of, permitted, FIGURES};
use crate::answer::{Answer, Input};
use crate::dialogs::updates::REQUEST as IMAGE_REQUEST;
use crate::prack::call::{Pracks, GET_PENDING, IS_PRACKED, REGISTER, REMOVE_DIALOG, REMOVE_PRACKED, VALIDATE};
use crate::prack::layout::decode;
use crate::rules::LONGEST;
use crate::run;
use crate::store::call::{
    ALL_IDS, COUNT, FIND_BY_CALL_ID, FIND_BY_REQUEST, GET, NEXT, PUT, REMOVE, REQUEST, RESPONSE, SET, SWEEP, TERMINATE,
};
use crate::store::dialogs::Dialogs;
use crate::store::kind::Kind;
use crate::store::memory::Left;
use crate::store::run::{ask_at, keep, Fault, Scene};
use port::Settings;

/// Where the figures stand among the five.
const JUMP: usize = 0;
const PENDING: usize = 1;
const CLEANUP: usize = 2;
const TIMEOUT: usize = 3;
const CAP: usize = 4;

/// How a bound is one off: what is below the least is taken, what is above the most; the least is refused, the most.
#[derive(Clone, Copy)]
enum Off {
    Below,
    Above,
    Least,
    Most,
}

use Off::{Above, Below, Least, Most};

/// The settings as they are judged with a bound of a figure one off: those taken get the bound, those refused go over it.
fn off_by_one(settings: Settings, at: usize, off: Off) -> Settings {
    let (_, least, most) = FIGURES[at];
    let mut figures = figures(settings);
    figures[at] = match off {
        Below if figures[at] == least - 1 => least,
        Above if figures[at] == most + 1 => most,
        Least if figures[at] == least => least - 1,
        Most if figures[at] == most => most + 1,
        _ => figures[at],
    };
    of(figures)
}

/// The settings with the Rust's figure in place of the site's, where they are permitted.
fn ignoring(settings: Settings, at: usize) -> Settings {
    let mut figures = figures(settings);
    if permitted(settings).is_ok() {
        figures[at] = super::figures(Settings::RUST)[at];
    }
    of(figures)
}

/// A fault of an operation without a store.
const fn of_image(
    name: &'static str,
    operation: &'static str,
    what: &'static str,
    distort: run::Distort,
) -> run::Fault {
    run::Fault {
        name,
        operation,
        what,
        distort,
    }
}

/// A bound of a figure is one off.
macro_rules! off {
    ($name:literal, $operation:literal, $at:ident, $off:ident, $what:literal) => {
        of_image($name, $operation, $what, |input, answer| {
            let judged = off_by_one(input.settings, $at, $off);
            match (permitted(input.settings), permitted(judged)) {
                (Err(_), Ok(())) => answer.number = 0,
                (Ok(()), Err(_)) => answer.number = 30,
                _ => {}
            }
        })
    };
}

/// The faults of the operations without a store, beside their own.
pub const IMAGE_FAULTS: &[run::Fault] = &[
    off!(
        "image_id-jump",
        "image_id, any settings",
        JUMP,
        Below,
        "a jump of 0 is taken"
    ),
    off!(
        "image_state-jump",
        "image_state, any settings",
        JUMP,
        Above,
        "a jump of 65,536 is taken"
    ),
    off!(
        "image_uris-jump",
        "image_uris, any settings",
        JUMP,
        Least,
        "a jump of 1 is refused"
    ),
    off!(
        "image_numbers-jump",
        "image_numbers, any settings",
        JUMP,
        Most,
        "a jump of 65,535 is refused"
    ),
    off!(
        "image_route-pending",
        "image_route, any settings",
        PENDING,
        Below,
        "0 pending are taken"
    ),
    off!(
        "image_route_count-pending",
        "image_route_count, any settings",
        PENDING,
        Above,
        "33 pending are taken"
    ),
    off!(
        "image_confirm-pending",
        "image_confirm, any settings",
        PENDING,
        Least,
        "1 pending is refused"
    ),
    off!(
        "image_terminate-pending",
        "image_terminate, any settings",
        PENDING,
        Most,
        "32 pending are refused"
    ),
    off!(
        "image_next_local_cseq-cleanup",
        "image_next_local_cseq, any settings",
        CLEANUP,
        Below,
        "a cleanup of 0 s is taken"
    ),
    off!(
        "image_set_session_expires-cleanup",
        "image_set_session_expires, any settings",
        CLEANUP,
        Above,
        "a cleanup of 3,601 s is taken"
    ),
    off!(
        "image_update_from_response-cleanup",
        "image_update_from_response, any settings",
        CLEANUP,
        Least,
        "a cleanup of 1 s is refused"
    ),
    off!(
        "image_update_from_request-cleanup",
        "image_update_from_request, any settings",
        CLEANUP,
        Most,
        "a cleanup of 3,600 s is refused"
    ),
    off!(
        "image_matches_request-timeout",
        "image_matches_request, any settings",
        TIMEOUT,
        Below,
        "a timeout of 0 s is taken"
    ),
    off!(
        "image_needs_refresh-timeout",
        "image_needs_refresh, any settings",
        TIMEOUT,
        Above,
        "a timeout of 3,601 s is taken"
    ),
    off!(
        "listing-timeout",
        "listing, any settings",
        TIMEOUT,
        Least,
        "a timeout of 1 s is refused"
    ),
    off!(
        "image_id-timeout",
        "image_id, any settings",
        TIMEOUT,
        Most,
        "a timeout of 3,600 s is refused"
    ),
    off!(
        "image_state-cap",
        "image_state, any settings",
        CAP,
        Below,
        "a cap of 0 is taken"
    ),
    off!(
        "image_uris-cap",
        "image_uris, any settings",
        CAP,
        Above,
        "a cap of 101 is taken"
    ),
    off!(
        "image_numbers-cap",
        "image_numbers, any settings",
        CAP,
        Least,
        "a cap of 1 is refused"
    ),
    off!(
        "listing-cap",
        "listing, any settings",
        CAP,
        Most,
        "a cap of 100 is refused"
    ),
    of_image(
        "image_update_from_request-jump",
        "image_update_from_request, any settings",
        "the Rust's jump counts",
        |input, answer| ask_request_at(input, answer, ignoring(input.settings, JUMP)),
    ),
    of_image(
        "image_update_from_request-1",
        "image_update_from_request, any settings",
        "30 comes after 1",
        |input, answer| after_1(input, answer),
    ),
    of_image(
        "image_update_from_response-1",
        "image_update_from_response, any settings",
        "30 comes after 1",
        |input, answer| after_1(input, answer),
    ),
    of_image(
        "image_matches_request-1",
        "image_matches_request, any settings",
        "30 comes after 1",
        |input, answer| after_1(input, answer),
    ),
];

/// 30 comes after 1 of a method or a block.
fn after_1(input: &Input, answer: &mut Answer) {
    let is_too_long = input.texts[1..3].iter().any(|text| text.len() > LONGEST);
    if answer.number == 30 && is_too_long {
        answer.number = 1;
    }
}

/// A request on an image is asked with other settings.
fn ask_request_at(input: &Input, answer: &mut Answer, settings: Settings) {
    let request = base_of(name_of(IMAGE_REQUEST));
    answer.keep_all(request.outs);
    answer.number = (request.ask)(&Input { settings, ..*input }, answer);
}

/// A call on a store is asked with other settings than it was given.
macro_rules! asked {
    ($name:literal, $operation:ident, $what:literal, $settings:expr) => {
        Fault {
            name: $name,
            operation: $operation,
            what: $what,
            distort: |scene, left| {
                let other = $settings(scene.before.store.settings);
                if other != scene.before.store.settings {
                    ask_at(scene, left, other);
                }
            },
        }
    };
}

/// The settings aren't looked at: where they are outside their bounds the Rust's count.
macro_rules! unlooked {
    ($name:literal, $operation:ident) => {
        asked!($name, $operation, "the settings aren't looked at", |given| {
            match permitted(given) {
                Ok(()) => given,
                Err(_) => Settings::RUST,
            }
        })
    };
}

/// 30 comes after 1 or 3.
macro_rules! after {
    ($name:literal, $operation:ident, $number:literal, $what:literal) => {
        Fault {
            name: $name,
            operation: $operation,
            what: $what,
            distort: |scene, left| after(scene, left, $number),
        }
    };
}

/// Where the Rust's settings would be refused by this number, it is answered.
fn after<K: Kind>(scene: &Scene<K>, left: &mut Left, number: u8) {
    if left.number == 30 {
        ask_at(scene, left, Settings::RUST);
        let first = if left.number == number { number } else { 30 };
        keep(scene, left, first);
    }
}

/// 30 is answered, but what the call changes is changed.
fn change_all_the_same<K: Kind>(scene: &Scene<K>, left: &mut Left) {
    if left.number == 30 {
        ask_at(scene, left, Settings::RUST);
        left.number = 30;
    }
}

/// That on a call of a PRACK store, which cleans.
macro_rules! cleaning {
    ($name:literal, $operation:ident) => {
        Fault {
            name: $name,
            operation: $operation,
            what: "a call refused by 30 cleans",
            distort: change_all_the_same,
        }
    };
}

/// A list longer than the site allows is read.
macro_rules! longer {
    ($name:literal, $operation:ident) => {
        Fault {
            name: $name,
            operation: $operation,
            what: "a list longer than the site allows is read",
            distort: read_longer,
        }
    };
}

/// Where the store is one with lists of 32, the port is asked so.
fn read_longer(scene: &Scene<Pracks>, left: &mut Left) {
    let settings = Settings {
        pending: 32,
        ..scene.before.store.settings
    };
    if left.number == 3 && decode(scene.before.store.used_bytes(), 32).is_some() {
        ask_at(scene, left, settings);
    }
}

/// Cleanup and timeout swapped.
fn swapped(settings: Settings) -> Settings {
    Settings {
        cleanup_seconds: settings.timeout_seconds,
        timeout_seconds: settings.cleanup_seconds,
        ..settings
    }
}

/// The faults of the calls on a store of records.
pub const RECORD_FAULTS: &[Fault<Dialogs>] = &[
    asked!("put-cap", PUT, "the Rust's Early cap counts", |given| ignoring(
        given, CAP
    )),
    asked!("request-jump", REQUEST, "the Rust's jump counts", |given| ignoring(
        given, JUMP
    )),
    asked!("put-cap-1", PUT, "the Early cap is one more", |given: Settings| {
        Settings {
            early_cap: given.early_cap.saturating_add(1).min(100).max(given.early_cap),
            ..given
        }
    }),
    asked!("request-jump-1", REQUEST, "the jump is one less", |given: Settings| {
        Settings {
            cseq_jump: given.cseq_jump.saturating_sub(1).max(1).min(given.cseq_jump),
            ..given
        }
    }),
    after!("request-settings-1", REQUEST, 1, "30 comes after 1"),
    after!("response-settings-1", RESPONSE, 1, "30 comes after 1"),
    after!("find_by_request-settings-1", FIND_BY_REQUEST, 1, "30 comes after 1"),
    after!("put-settings-3", PUT, 3, "30 comes after 3"),
    after!("count-settings-3", COUNT, 3, "30 comes after 3"),
    Fault {
        name: "sweep-settings-30",
        operation: SWEEP,
        what: "a call refused by 30 sweeps",
        distort: change_all_the_same,
    },
    unlooked!("put-settings", PUT),
    unlooked!("request-settings", REQUEST),
    unlooked!("response-settings", RESPONSE),
    unlooked!("terminate-settings", TERMINATE),
    unlooked!("next_local_cseq-settings", NEXT),
    unlooked!("set_session_expires-settings", SET),
    unlooked!("remove-settings", REMOVE),
    unlooked!("sweep-settings", SWEEP),
    unlooked!("get-settings", GET),
    unlooked!("find_by_call_id-settings", FIND_BY_CALL_ID),
    unlooked!("find_by_request-settings", FIND_BY_REQUEST),
    unlooked!("count-settings", COUNT),
    unlooked!("all_ids-settings", ALL_IDS),
];

/// The faults of the calls on a PRACK store.
pub const PRACK_FAULTS: &[Fault<Pracks>] = &[
    asked!(
        "prack_register-pending",
        REGISTER,
        "the Rust's ten pending count",
        |given| ignoring(given, PENDING)
    ),
    asked!(
        "prack_register-cleanup",
        REGISTER,
        "the Rust's cleanup counts",
        |given| ignoring(given, CLEANUP)
    ),
    asked!(
        "prack_register-timeout",
        REGISTER,
        "the Rust's timeout counts",
        |given| ignoring(given, TIMEOUT)
    ),
    asked!(
        "prack_register-swapped",
        REGISTER,
        "cleanup and timeout are swapped",
        swapped
    ),
    asked!(
        "prack_validate-cleanup",
        VALIDATE,
        "the Rust's cleanup counts",
        |given| ignoring(given, CLEANUP)
    ),
    asked!(
        "prack_validate-timeout",
        VALIDATE,
        "the Rust's timeout counts",
        |given| ignoring(given, TIMEOUT)
    ),
    asked!(
        "prack_validate-swapped",
        VALIDATE,
        "cleanup and timeout are swapped",
        swapped
    ),
    asked!(
        "prack_get_pending-cleanup",
        GET_PENDING,
        "the Rust's cleanup counts",
        |given| ignoring(given, CLEANUP)
    ),
    asked!(
        "prack_get_pending-timeout",
        GET_PENDING,
        "the Rust's timeout counts",
        |given| ignoring(given, TIMEOUT)
    ),
    asked!(
        "prack_get_pending-swapped",
        GET_PENDING,
        "cleanup and timeout are swapped",
        swapped
    ),
    longer!("prack_register-longer", REGISTER),
    longer!("prack_validate-longer", VALIDATE),
    longer!("prack_is_pracked-longer", IS_PRACKED),
    longer!("prack_get_pending-longer", GET_PENDING),
    longer!("prack_remove_dialog-longer", REMOVE_DIALOG),
    longer!("prack_remove_pracked-longer", REMOVE_PRACKED),
    cleaning!("prack_register-settings-30", REGISTER),
    cleaning!("prack_validate-settings-30", VALIDATE),
    cleaning!("prack_get_pending-settings-30", GET_PENDING),
    after!("prack_register-settings-1", REGISTER, 1, "30 comes after 1"),
    after!("prack_register-settings-28", REGISTER, 28, "30 comes after 28"),
    after!("prack_validate-settings-1", VALIDATE, 1, "30 comes after 1"),
    after!("prack_is_pracked-settings-3", IS_PRACKED, 3, "30 comes after 3"),
    unlooked!("prack_register-settings", REGISTER),
    unlooked!("prack_validate-settings", VALIDATE),
    unlooked!("prack_is_pracked-settings", IS_PRACKED),
    unlooked!("prack_get_pending-settings", GET_PENDING),
    unlooked!("prack_remove_dialog-settings", REMOVE_DIALOG),
    unlooked!("prack_remove_pracked-settings", REMOVE_PRACKED),
];
