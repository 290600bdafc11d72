//! session_timer_manager.rs's free functions and `needs_refresh`. Times are whole nanoseconds on both sides.

use super::YES;
use crate::answer::{lent_as, Answer, Input, Out, Width, NOTHING};
use crate::random::Random;
use crate::rules;
use crate::run::{Feed, Operation};
use crate::texts::{each_sequence, each_value, Values};
use sip_core::SipUri;
use sip_dialog::session_timer_manager as rust;
use sip_dialog::{Dialog, DialogId, DialogStateType};
use std::time::Duration;

const SECOND: u64 = 1_000_000_000;

const TIME: &[Out] = &[("answer", Width::U64)];

pub const OPERATIONS: &[Operation] = &[
    Operation {
        name: "validate_session_expires",
        against: "Rust validate_session_expires",
        texts: &[],
        numbers: &["interval", "has minimum", "minimum"],
        outs: &[("least", Width::U64)],
        rows: &[0, 13],
        expect: expect_validate,
        ask: ask_validate,
        inputs: each_validation,
        fault: "a given minimum below 90 s is raised to 90 s",
        distort: distort_validate,
    },
    Operation {
        name: "negotiate_session_expires",
        against: "Rust negotiate_session_expires",
        texts: &[],
        numbers: &[
            "requested",
            "local minimum",
            "has remote minimum",
            "remote minimum",
            "has preference",
            "preference",
        ],
        outs: &[("interval", Width::U64), ("least", Width::U64)],
        rows: &[0, 13],
        expect: expect_negotiate,
        ask: ask_negotiate,
        inputs: each_offer,
        fault: "the preference isn't raised to the minimum",
        distort: distort_negotiate,
    },
    Operation {
        name: "non_refresher_expiry",
        against: "Rust non_refresher_expiry",
        texts: &[],
        numbers: &["interval"],
        outs: TIME,
        rows: &[0],
        expect: |input, answer| expect_time(input, answer, rust::non_refresher_expiry),
        ask: |input, answer| {
            answer.outs[0] = port::non_refresher_expiry(input.numbers[0]);
            0
        },
        inputs: each_time,
        fault: "the third is rounded up",
        distort: |input, answer| {
            let interval = input.numbers[0];
            if interval < 96 * SECOND && interval % 3 != 0 {
                answer.outs[0] -= 1;
            }
        },
    },
    Operation {
        name: "calculate_refresh_time",
        against: "Rust calculate_refresh_time",
        texts: &[],
        numbers: &["interval"],
        outs: TIME,
        rows: &[0],
        expect: |input, answer| expect_time(input, answer, rust::calculate_refresh_time),
        ask: |input, answer| {
            answer.outs[0] = port::calculate_refresh_time(input.numbers[0]);
            0
        },
        inputs: each_time,
        fault: "the half is rounded up",
        distort: |input, answer| answer.outs[0] += input.numbers[0] % 2,
    },
    Operation {
        name: "needs_refresh",
        against: "Rust Dialog::needs_refresh",
        texts: &[],
        numbers: &["has interval", "seconds", "elapsed"],
        outs: YES,
        rows: &[0, NOTHING],
        expect: expect_needs_refresh,
        ask: |input, answer| {
            let [has, seconds, elapsed, ..] = input.numbers;
            let seconds = seconds as u32;
            let interval = (has == 1).then_some(seconds);
            answer.outs[0] = u64::from(port::needs_refresh(interval, seconds, elapsed));
            0
        },
        inputs: each_elapsed,
        fault: "whole seconds are compared",
        distort: |input, answer| {
            let [has, seconds, elapsed, ..] = input.numbers;
            answer.outs[0] = u64::from(has == 1 && elapsed / SECOND >= seconds * 2 / 3);
        },
    },
    Operation {
        name: "determine_refresher_role",
        against: "Rust determine_refresher_role",
        texts: &["text"],
        numbers: &["given", "is uac"],
        outs: &[("yes", Width::U8)],
        rows: &[0, 1, NOTHING],
        expect: expect_role,
        ask: ask_role,
        inputs: each_role,
        fault: "`Uas` is read as `uas`",
        distort: distort_role,
    },
];

/// Times at which an answer may turn: the smallest, around 32, 90 and 96 s, around the bounds of the widths.
fn edges() -> Vec<u64> {
    let middles = [
        3,
        SECOND,
        32 * SECOND,
        60 * SECOND,
        90 * SECOND,
        96 * SECOND,
        120 * SECOND,
        1800 * SECOND,
        86_400 * SECOND,
        u64::from(u32::MAX),
        u64::from(u32::MAX) * SECOND,
        1 << 63,
        u64::MAX - 3,
    ];
    let around = |middle: u64| middle - 3..=middle + 3;
    middles.into_iter().flat_map(around).collect()
}

/// Any time, at an edge or of any size.
fn time(random: &mut Random, edges: &[u64]) -> u64 {
    match random.below(3) {
        0 => random.pick(edges),
        1 => random.next() % (200 * SECOND),
        _ => random.next() >> random.below(64),
    }
}

/// A time near another one, or any.
fn time_near(random: &mut Random, other: u64, edges: &[u64]) -> u64 {
    match random.below(3) {
        0 => other.saturating_add(random.below(3) as u64).saturating_sub(1),
        _ => time(random, edges),
    }
}

/// The edges and the smallest times, then random ones.
fn each_time(feed: &mut Feed) {
    let edges = edges();
    for interval in edges.iter().copied().chain(0..2000) {
        feed.compare(&Input::number(interval));
    }
    for _ in 0..feed.calls {
        let interval = time(&mut feed.random, &edges);
        feed.compare(&Input::number(interval));
    }
}

/// A nanosecond number as the Rust's duration, and back.
fn duration(nanoseconds: u64) -> Duration {
    Duration::from_nanos(nanoseconds)
}

/// The Rust's duration as a nanosecond number.
fn nanoseconds(duration: Duration) -> u64 {
    u64::try_from(duration.as_nanos()).expect("no longer than what was given")
}

/// The Rust's time for an interval.
fn expect_time(input: &Input, answer: &mut Answer, function: fn(Duration) -> Duration) -> Result<(), u8> {
    answer.outs[0] = nanoseconds(function(duration(input.numbers[0])));
    Ok(())
}

/// All pairs of edges with and without a minimum, then random ones.
fn each_validation(feed: &mut Feed) {
    let edges = edges();
    let give = |feed: &mut Feed, interval: u64, has: u64, minimum: u64| {
        let input = Input::number(interval).and_number(1, has);
        feed.compare(&input.and_number(2, minimum));
    };
    for interval in &edges {
        for minimum in &edges {
            give(feed, *interval, 0, *minimum);
            give(feed, *interval, 1, *minimum);
        }
    }
    for _ in 0..feed.calls {
        let interval = time(&mut feed.random, &edges);
        let minimum = time_near(&mut feed.random, interval, &edges);
        let has = u64::from(!feed.random.one_in(4));
        give(feed, interval, has, minimum);
    }
}

/// The Rust's check; 13 with its minimum.
fn expect_validate(input: &Input, answer: &mut Answer) -> Result<(), u8> {
    let [interval, has, minimum, ..] = input.numbers;
    let minimum = (has == 1).then(|| duration(minimum));
    match rust::validate_session_expires(duration(interval), minimum) {
        Ok(same) => {
            assert_eq!(nanoseconds(same), interval, "the Rust answers what it was given");
            Ok(())
        }
        Err(least) => {
            answer.outs[0] = nanoseconds(least);
            Err(13)
        }
    }
}

/// The port's check.
fn ask_validate(input: &Input, answer: &mut Answer) -> u8 {
    let [interval, has, minimum, ..] = input.numbers;
    let given = (has == 1).then_some(minimum);
    port::validate_session_expires(interval, given, minimum, &mut answer.outs[0])
}

/// Refuses below 90 s whatever minimum is given.
fn distort_validate(input: &Input, answer: &mut Answer) {
    let [interval, has, minimum, ..] = input.numbers;
    let raised = 90 * SECOND;
    if has == 1 && minimum < raised && interval < raised {
        answer.number = 13;
        answer.outs[0] = raised;
    }
}

/// Random offers whose numbers lie near each other, and all offers over a few edges.
fn each_offer(feed: &mut Feed) {
    let few = [0, 1, 90 * SECOND, 90 * SECOND + 1, u64::MAX];
    for requested in few {
        for local in few {
            for remote in few {
                for preference in few {
                    for given in 0..4 {
                        let numbers = [requested, local, given & 1, remote, given >> 1, preference];
                        feed.compare(&Input {
                            numbers,
                            ..Input::default()
                        });
                    }
                }
            }
        }
    }
    let edges = edges();
    for _ in 0..feed.calls {
        let random = &mut feed.random;
        let requested = time(random, &edges);
        let local = time_near(random, requested, &edges);
        let remote = time_near(random, local, &edges);
        let preference = time_near(random, remote, &edges);
        let given = [random.below(2) as u64, random.below(2) as u64];
        let numbers = [requested, local, given[0], remote, given[1], preference];
        feed.compare(&Input {
            numbers,
            ..Input::default()
        });
    }
}

/// The Rust's interval, or 13 with its minimum.
fn expect_negotiate(input: &Input, answer: &mut Answer) -> Result<(), u8> {
    let [requested, local, has_remote, remote, has_preference, preference] = input.numbers;
    let negotiated = rust::negotiate_session_expires(
        duration(requested),
        duration(local),
        (has_remote == 1).then(|| duration(remote)),
        (has_preference == 1).then(|| duration(preference)),
    );
    match negotiated {
        Ok(interval) => {
            answer.outs[0] = nanoseconds(interval);
            Ok(())
        }
        Err(least) => {
            answer.outs[1] = nanoseconds(least);
            Err(13)
        }
    }
}

/// The port's interval.
fn ask_negotiate(input: &Input, answer: &mut Answer) -> u8 {
    let [requested, local_minimum, has_remote, remote, has_preference, preference] = input.numbers;
    let offer = port::Offer {
        requested,
        local_minimum,
        remote_minimum: (has_remote == 1).then_some(remote),
        preference: (has_preference == 1).then_some(preference),
        absent: if has_remote == 1 { preference } else { remote },
    };
    let [interval, least, ..] = &mut answer.outs;
    port::negotiate_session_expires(&offer, interval, least)
}

/// Takes the preference as it is.
fn distort_negotiate(input: &Input, answer: &mut Answer) {
    let [requested, .., has_preference, preference] = input.numbers;
    if answer.number == 0 && has_preference == 1 {
        answer.outs[0] = requested.min(preference);
    }
}

/// The times around two thirds of so many seconds and around all of them, and those whose triple is around the largest u64.
fn elapsed_around(seconds: u64) -> [u64; 12] {
    let interval = seconds * SECOND;
    let due = interval * 2 / 3;
    let triple = u64::MAX / 3;
    [
        0,
        due / SECOND * SECOND,
        due.saturating_sub(1),
        due,
        due + 1,
        interval.saturating_sub(1),
        interval,
        triple - 1,
        triple,
        triple + 1,
        u64::MAX - 1,
        u64::MAX,
    ]
}

/// Small and large intervals, each at the times around its two thirds and at the largest, then random ones.
fn each_elapsed(feed: &mut Feed) {
    let largest = u64::from(u32::MAX);
    for seconds in (0..1500).chain([86_400, 86_401, largest - 1, largest]) {
        for elapsed in elapsed_around(seconds) {
            for has in 0..2 {
                give_elapsed(feed, has, seconds, elapsed);
            }
        }
    }
    for _ in 0..feed.calls {
        let seconds = feed.random.next() >> (32 + feed.random.below(32));
        let elapsed = time_near(&mut feed.random, seconds * SECOND * 2 / 3, &[u64::MAX]);
        give_elapsed(feed, 1, seconds, elapsed);
    }
}

/// Asks with or without an interval of so many seconds.
fn give_elapsed(feed: &mut Feed, has: u64, seconds: u64, elapsed: u64) {
    feed.compare(&Input::number(has).and_number(1, seconds).and_number(2, elapsed));
}

/// The Rust's yes or no.
fn expect_needs_refresh(input: &Input, answer: &mut Answer) -> Result<(), u8> {
    let [has, seconds, elapsed, ..] = input.numbers;
    let interval = (has == 1).then(|| Duration::from_secs(seconds));
    let needed = dialog_with(interval).needs_refresh(duration(elapsed));
    answer.outs[0] = u64::from(needed);
    Ok(())
}

/// A dialog of the Rust with that interval; `needs_refresh` looks at nothing else.
fn dialog_with(interval: Option<Duration>) -> Dialog {
    let uri = || SipUri::parse("sip:x").expect("readable");
    Dialog::unchecked_new(
        DialogId::unchecked_new("c", "l", "r"),
        DialogStateType::Confirmed,
        uri(),
        uri(),
        uri(),
        0,
        0,
        None,
        Vec::new(),
        false,
        interval,
        None,
        true,
    )
}

const ROLES: Values = Values {
    templates: &["uac", "UAC", "uas", "UAS"],
    pieces: &["u", "U", "a", "A", "s", "S", "c", "C", " "],
    longest: 4,
    write: |random| random.pick(&["uac", "uas", "UAC", "UAS", "Uas", "", "uas "]).into(),
    fillers: b" us",
};

/// Every text up to four pieces and random ones, given, for both sides; then none given.
fn each_role(feed: &mut Feed) {
    each_value(feed, &ROLES, &|feed, text| {
        for is_uac in 0..2 {
            feed.compare(&Input::text(text).and_number(0, 1).and_number(1, is_uac));
        }
    });
    let mut not_given = |text: &[u8]| {
        for is_uac in 0..2 {
            feed.compare(&Input::text(text).and_number(1, is_uac));
        }
    };
    each_sequence(ROLES.pieces, 3, &mut not_given);
    not_given(&[b'x'; rules::LONGEST + 1]);
}

/// A text that is not UTF-8 is none of the four that the Rust knows: the default. 1 is for a text that is given.
fn expect_role(input: &Input, answer: &mut Answer) -> Result<(), u8> {
    let [given, is_uac, ..] = input.numbers;
    let text = input.texts[0];
    if given == 1 {
        rules::limit(&[text])?;
    }
    let given = (given == 1).then(|| std::str::from_utf8(text).unwrap_or("?"));
    answer.outs[0] = u64::from(rust::determine_refresher_role(given, is_uac == 1));
    Ok(())
}

/// The port's role.
fn ask_role(input: &Input, answer: &mut Answer) -> u8 {
    let [given, is_uac, ..] = input.numbers;
    let text = input.texts[0];
    let given = (given == 1).then_some(text);
    lent_as(&mut answer.outs[0], |refresher| {
        port::determine_refresher_role(given, text, is_uac == 1, refresher)
    })
}

/// Reads `Uas` as `uas`.
fn distort_role(input: &Input, answer: &mut Answer) {
    let [given, is_uac, ..] = input.numbers;
    if given == 1 && input.texts[0] == b"Uas" {
        answer.outs[0] = 1 - is_uac;
    }
}
