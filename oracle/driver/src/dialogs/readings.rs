//! Readings of one record's image: the Rust's accessors, `matches_request` and `needs_refresh`. The texts are the image's own
//! bytes; the places are the run's own, held against the Rust's texts.

use super::calls::{self, Call};
use super::image::{self, Record};
use super::{each_image, Make};
use crate::answer::{lent_as, Answer, Input, Out, Width, NOTHING};
use crate::bounds;
use crate::messages::request;
use crate::misreadings::EVERY_SEMICOLON;
use crate::operations::{ask_places, lent_part, take_part, ID_PARTS, PART, YES};
use crate::places;
use crate::random::Random;
use crate::rules;
use crate::run::{Fault, Operation};
use crate::settings;
use crate::tags::{self, Message, REQUEST_3};
use sip_core::{Method, SipUri};
use std::ops::Range;
use std::time::Duration;

const MATCHES: &str = "image_matches_request";
const REFRESH: &str = "image_needs_refresh";
const ID: &str = "image_id";
const STATE: &str = "image_state";
const URIS: &str = "image_uris";
const NUMBERS: &str = "image_numbers";
const ROUTE_COUNT: &str = "image_route_count";
const ROUTE: &str = "image_route";

const SECOND: u64 = 1_000_000_000;

/// The readings, and how a call of each on a given image is made.
pub const MAKERS: &[(&str, Make)] = &[
    (MATCHES, make_matches),
    (REFRESH, make_refresh),
    (ID, make_plain),
    (STATE, make_plain),
    (URIS, make_plain),
    (NUMBERS, make_plain),
    (ROUTE_COUNT, make_plain),
    (ROUTE, make_route),
];

const URI_PARTS: &[Out] = &[
    ("target", Width::U64),
    ("target length", Width::U64),
    ("local URI", Width::U64),
    ("local URI length", Width::U64),
    ("remote URI", Width::U64),
    ("remote URI length", Width::U64),
];

const NUMBER_PARTS: &[Out] = &[
    ("local number", Width::U32),
    ("remote number", Width::U32),
    ("has last ACK", Width::U8),
    ("last ACK", Width::U32),
    ("has seconds", Width::U8),
    ("seconds", Width::U32),
    ("refresher", Width::U8),
];

pub const OPERATIONS: &[Operation] = &[
    Operation {
        name: MATCHES,
        against: "Rust Dialog::matches_request, tags as in extract_tag",
        texts: &["image", "block"],
        numbers: &[],
        outs: YES,
        rows: &[0, 1, 2, 3, NOTHING],
        expect: expect_matches,
        ask: |input, answer| {
            lent_as(&mut answer.outs[0], |matches| {
                port::image_matches_request(input.settings, input.texts[1], input.texts[0], matches)
            })
        },
        inputs: |feed| each_image(feed, make_matches),
        fault: "the tags of the request aren't swapped",
        distort: distort_matches,
    },
    Operation {
        name: REFRESH,
        against: "Rust Dialog::needs_refresh",
        texts: &["image"],
        numbers: &["elapsed"],
        outs: YES,
        rows: &[0, 3, NOTHING],
        expect: expect_refresh,
        ask: |input, answer| {
            lent_as(&mut answer.outs[0], |due| {
                port::image_needs_refresh(input.settings, input.texts[0], input.numbers[0], due)
            })
        },
        inputs: |feed| each_image(feed, make_refresh),
        fault: "an interval of 0 counts as none",
        distort: |input, answer| {
            let record = image::decode(input.texts[0]);
            if record.is_some_and(|record| image::seconds(&record.dialog) == Some(0)) {
                answer.outs[0] = 0;
            }
        },
    },
    Operation {
        name: ID,
        against: "Rust Dialog::id",
        texts: &["image"],
        numbers: &[],
        outs: ID_PARTS,
        rows: &[0, 3],
        expect: expect_id,
        ask: |input, answer| {
            ask_places(input, answer, |image, parts| {
                port::image_id(input.settings, image, parts)
            })
        },
        inputs: |feed| each_image(feed, make_plain),
        fault: "the two tags are swapped",
        distort: |_, answer| {
            answer.outs.swap(2, 4);
            answer.outs.swap(3, 5);
        },
    },
    Operation {
        name: STATE,
        against: "Rust Dialog::state, is_uac, secure",
        texts: &["image"],
        numbers: &[],
        outs: &[("state", Width::U8), ("we are uac", Width::U8), ("secure", Width::U8)],
        rows: &[0, 3],
        expect: expect_state,
        ask: ask_state,
        inputs: |feed| each_image(feed, make_plain),
        fault: "a `sips` target makes a record secure",
        distort: |input, answer| {
            let record = image::decode(input.texts[0]);
            if record.is_some_and(|record| record.dialog.remote_target().is_sips()) {
                answer.outs[2] = 1;
            }
        },
    },
    Operation {
        name: URIS,
        against: "Rust Dialog::remote_target, local_uri, remote_uri",
        texts: &["image"],
        numbers: &[],
        outs: URI_PARTS,
        rows: &[0, 3],
        expect: expect_uris,
        ask: |input, answer| {
            ask_places(input, answer, |image, parts| {
                port::image_uris(input.settings, image, parts)
            })
        },
        inputs: |feed| each_image(feed, make_plain),
        fault: "local and remote URI are swapped",
        distort: |_, answer| {
            answer.outs.swap(2, 4);
            answer.outs.swap(3, 5);
        },
    },
    Operation {
        name: NUMBERS,
        against: "Rust Dialog's accessors of numbers",
        texts: &["image"],
        numbers: &[],
        outs: NUMBER_PARTS,
        rows: &[0, 3],
        expect: expect_numbers,
        ask: ask_numbers,
        inputs: |feed| each_image(feed, make_plain),
        fault: "a last ACK of 0 counts as none",
        distort: |_, answer| {
            if answer.number == 0 && answer.outs[3] == 0 {
                answer.outs[2] = 0;
            }
        },
    },
    Operation {
        name: ROUTE_COUNT,
        against: "Rust Dialog::route_set",
        texts: &["image"],
        numbers: &[],
        outs: &[("count", Width::U64)],
        rows: &[0, 3],
        expect: expect_route_count,
        ask: |input, answer| {
            lent_as(&mut answer.outs[0], |count| {
                port::image_route_count(input.settings, input.texts[0], count)
            })
        },
        inputs: |feed| each_image(feed, make_plain),
        fault: "the 50th route isn't counted",
        distort: |_, answer| {
            if answer.number == 0 {
                answer.outs[0] = answer.outs[0].min(49);
            }
        },
    },
    Operation {
        name: ROUTE,
        against: "Rust Dialog::route_set",
        texts: &["image"],
        numbers: &["index"],
        outs: PART,
        rows: &[0, 3, NOTHING],
        expect: expect_route,
        ask: |input, answer| {
            let mut part = lent_part(answer);
            let number = port::image_route(input.settings, input.texts[0], input.numbers[0] as usize, &mut part);
            take_part(answer, part);
            number
        },
        inputs: |feed| each_image(feed, make_route),
        fault: "the routes are counted from the back",
        distort: distort_route,
    },
];

pub const MATCHES_FAULT: Fault = Fault {
    name: "image_matches_request-cut",
    operation: MATCHES,
    what: "every semicolon cuts, as in the Rust",
    distort: |input, answer| {
        if answer.number == 0 {
            let block = tags::with_tags_by(&EVERY_SEMICOLON, input.texts[1]);
            lent_as(&mut answer.outs[0], |matches| {
                port::image_matches_request(input.settings, &block, input.texts[0], matches)
            });
        }
    },
};

/// A reading that is given nothing else.
fn make_plain(_: &mut Random, image: &[u8]) -> Call {
    Call::of_image(image)
}

/// A request whose identifier is the record's, or nearly.
fn make_matches(random: &mut Random, image: &[u8]) -> Call {
    let mut call = Call::of_image(image);
    let record = image::decode(image);
    call.texts[1] = calls::named_request(random, record.as_ref().map(|record| record.dialog.id()));
    call
}

/// A time around two thirds of the record's interval, or at the ends.
fn make_refresh(random: &mut Random, image: &[u8]) -> Call {
    let mut call = Call::of_image(image);
    let seconds = image::decode(image).and_then(|record| image::seconds(&record.dialog));
    let due = u64::from(seconds.unwrap_or(90)) * SECOND * 2 / 3;
    call.numbers[0] = match random.below(6) {
        0 => random.pick(&[0, 1, u64::MAX, u64::MAX - 1]),
        1 => random.next() >> random.below(64),
        _ => (due + random.below(3) as u64).saturating_sub(1),
    };
    call
}

/// One of the record's routes, or none.
fn make_route(random: &mut Random, image: &[u8]) -> Call {
    let mut call = Call::of_image(image);
    let count = image::decode(image).map_or(3, |record| record.routes.len());
    call.numbers[0] = match random.below(8) {
        0 => random.pick(&[49, 50, 51, 255, 256, u64::MAX]),
        1 => count as u64,
        2 => (count as u64).saturating_sub(1),
        _ => random.below(count + 1) as u64,
    };
    call
}

/// The record of a whole image: 30, 3.
fn record(input: &Input) -> Result<Record, u8> {
    settings::permitted(input.settings)?;
    image::decode(input.texts[0]).ok_or(3)
}

/// The Rust's yes or no. Where From or To holds a semicolon: whether the record has the identifier of the run's own reading.
fn expect_matches(input: &Input, answer: &mut Answer) -> Result<(), u8> {
    let block = input.texts[1];
    settings::permitted(input.settings)?;
    bounds::number(MATCHES, "block, bytes", block.len());
    rules::limit(&[block])?;
    let request = request(Method::Invite, rules::headers(block)?);
    let dialog = record(input)?.dialog;
    let parts = tags::identifier(MATCHES, block, Message::Request);
    let held = tags::block_holds(block);
    let matches = match held {
        true => parts.is_some_and(|parts| tags::swapped(&tags::id_of(block, &parts)) == *dialog.id()),
        false => dialog.matches_request(&request),
    };
    tags::meet_answer(MATCHES, held, matches);
    answer.outs[0] = u64::from(matches);
    Ok(())
}

/// Compares From's tag with the local one.
fn distort_matches(input: &Input, answer: &mut Answer) {
    let block = input.texts[1];
    let (Some(record), 0) = (image::decode(input.texts[0]), answer.number) else {
        return;
    };
    let parts = tags::parts_by(&REQUEST_3, block, Message::Request);
    let same = parts.is_some_and(|parts| tags::id_of(block, &parts) == *record.dialog.id());
    answer.outs[0] = u64::from(same);
}

/// The Rust's yes or no.
fn expect_refresh(input: &Input, answer: &mut Answer) -> Result<(), u8> {
    let dialog = record(input)?.dialog;
    let elapsed = input.numbers[0];
    bounds::number(REFRESH, "elapsed", elapsed);
    match image::seconds(&dialog) {
        Some(seconds) => {
            bounds::number(REFRESH, "seconds", seconds);
            bounds::above(
                REFRESH,
                "elapsed minus two thirds",
                elapsed,
                u64::from(seconds) * SECOND * 2 / 3,
            );
        }
        None => bounds::met(REFRESH, "seconds", "none"),
    }
    answer.outs[0] = u64::from(dialog.needs_refresh(Duration::from_nanos(elapsed)));
    Ok(())
}

/// Gives three texts of the image as places and lengths.
fn give_places(input: &Input, answer: &mut Answer, places: &[Range<usize>; 3], texts: [&str; 3]) {
    for (index, (place, text)) in places.iter().zip(texts).enumerate() {
        places::held(input.texts[0], Some(place.clone()), Some(text));
        answer.outs[2 * index] = place.start as u64;
        answer.outs[2 * index + 1] = place.len() as u64;
    }
}

/// The Rust's identifier, at its places.
fn expect_id(input: &Input, answer: &mut Answer) -> Result<(), u8> {
    let record = record(input)?;
    let id = record.dialog.id();
    let texts = [id.call_id(), id.local_tag(), id.remote_tag()];
    give_places(input, answer, &record.id, texts);
    Ok(())
}

/// The Rust's URIs, at their places.
fn expect_uris(input: &Input, answer: &mut Answer) -> Result<(), u8> {
    let record = record(input)?;
    let dialog = &record.dialog;
    let uris = [dialog.remote_target(), dialog.local_uri(), dialog.remote_uri()];
    give_places(input, answer, &record.uris, uris.map(SipUri::as_str));
    Ok(())
}

/// The Rust's state, side and security.
fn expect_state(input: &Input, answer: &mut Answer) -> Result<(), u8> {
    let dialog = record(input)?.dialog;
    answer.outs[0] = u64::from(image::state_number(dialog.state()));
    answer.outs[1] = u64::from(dialog.is_uac());
    answer.outs[2] = u64::from(dialog.secure());
    Ok(())
}

/// The port's state, side and security.
fn ask_state(input: &Input, answer: &mut Answer) -> u8 {
    let [mut state, mut we_are_uac, mut secure] = [0, 1, 2].map(|index| answer.outs[index] as u8);
    let number = port::image_state(input.settings, input.texts[0], &mut state, &mut we_are_uac, &mut secure);
    for (out, value) in answer.outs.iter_mut().zip([state, we_are_uac, secure]) {
        *out = u64::from(value);
    }
    number
}

/// The Rust's numbers. A number that isn't present keeps its value.
fn expect_numbers(input: &Input, answer: &mut Answer) -> Result<(), u8> {
    let dialog = record(input)?.dialog;
    bounds::number(NUMBERS, "local number", dialog.local_cseq());
    bounds::number(NUMBERS, "remote number", dialog.remote_cseq());
    answer.outs[0] = u64::from(dialog.local_cseq());
    answer.outs[1] = u64::from(dialog.remote_cseq());
    give_optional(answer, "last ACK", 2, dialog.last_ack_cseq());
    give_optional(answer, "seconds", 4, image::seconds(&dialog));
    answer.outs[6] = dialog
        .refresher()
        .map_or(0, |role| u64::from(image::refresher_number(role)));
    Ok(())
}

/// Gives whether a number is present, and then the number.
fn give_optional(answer: &mut Answer, what: &'static str, index: usize, number: Option<u32>) {
    answer.outs[index] = u64::from(number.is_some());
    match number {
        Some(number) => {
            answer.outs[index + 1] = u64::from(number);
            bounds::number(NUMBERS, what, number);
        }
        None => bounds::met(NUMBERS, what, "none"),
    }
}

/// The port's numbers.
fn ask_numbers(input: &Input, answer: &mut Answer) -> u8 {
    let outs = answer.outs;
    let mut numbers = port::Numbers {
        local: outs[0] as u32,
        remote: outs[1] as u32,
        has_last_ack: outs[2] as u8,
        last_ack: outs[3] as u32,
        has_seconds: outs[4] as u8,
        seconds: outs[5] as u32,
        refresher: outs[6] as u8,
    };
    let number = port::image_numbers(input.settings, input.texts[0], &mut numbers);
    answer.outs[..7].copy_from_slice(&[
        u64::from(numbers.local),
        u64::from(numbers.remote),
        u64::from(numbers.has_last_ack),
        u64::from(numbers.last_ack),
        u64::from(numbers.has_seconds),
        u64::from(numbers.seconds),
        u64::from(numbers.refresher),
    ]);
    number
}

/// The size of the Rust's route set.
fn expect_route_count(input: &Input, answer: &mut Answer) -> Result<(), u8> {
    let count = record(input)?.dialog.route_set().len();
    bounds::number(ROUTE_COUNT, "routes", count);
    answer.outs[0] = count as u64;
    Ok(())
}

/// One of the Rust's routes, at its place.
fn expect_route(input: &Input, answer: &mut Answer) -> Result<(), u8> {
    let record = record(input)?;
    let index = input.numbers[0];
    let count = record.routes.len();
    bounds::number(ROUTE, "routes", count);
    bounds::above(ROUTE, "index minus count", index, count as u64);
    let index = usize::try_from(index).unwrap_or(usize::MAX);
    let route = record.dialog.route_set().get(index);
    let place = record.routes.get(index).cloned();
    answer.give_part(places::held(input.texts[0], place, route.map(SipUri::as_str)));
    Ok(())
}

/// Counts the routes from the back.
fn distort_route(input: &Input, answer: &mut Answer) {
    if let (0, 1, Some(record)) = (answer.number, answer.outs[0], image::decode(input.texts[0])) {
        let last = record.routes.len() - 1;
        let index = last - (input.numbers[0] as usize).min(last);
        answer.give_part(record.routes.get(index).cloned());
    }
}
