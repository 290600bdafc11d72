//! Changes of one record: the image goes into the Rust as a `Dialog`, the Rust's method is called, and the dialog that it
//! leaves is written as an image.

use super::calls::{self, Call};
use super::creation::{error_number, estimate, limit, meet_routes, method_of};
use super::image::{self, Record};
use super::order;
use super::records;
use super::room::{self, IMAGE, USED};
use super::{each_image, Make};
use crate::answer::{lent_as, Answer, Input, Out, Width};
use crate::bounds;
use crate::messages::{request, response};
use crate::random::Random;
use crate::rules;
use crate::run::Operation;
use crate::settings;
use port::Settings;
use sip_core::{Headers, Request, Response};
use sip_dialog::storage::{private, set_remote_cseq};
use sip_dialog::{Dialog, DialogError, DialogStateType};
use std::time::Duration;

pub const REQUEST: &str = "image_update_from_request";
const RESPONSE: &str = "image_update_from_response";
const CONFIRM: &str = "image_confirm";
const TERMINATE: &str = "image_terminate";
const NEXT: &str = "image_next_local_cseq";
const SET: &str = "image_set_session_expires";

const USED_OUT: &[Out] = &[("used", Width::U64)];

/// The changes, and how a call of each on a given image is made.
pub const MAKERS: &[(&str, Make)] = &[
    (REQUEST, make_request),
    (REQUEST, make_request),
    (RESPONSE, make_response),
    (RESPONSE, make_response),
    (CONFIRM, |random, image| make_plain(random, image, expect_confirm)),
    (TERMINATE, |random, image| make_plain(random, image, expect_terminate)),
    (NEXT, |random, image| make_plain(random, image, expect_next)),
    (SET, make_set),
];

pub const OPERATIONS: &[Operation] = &[
    Operation {
        name: REQUEST,
        against: "Rust Dialog::update_from_request",
        texts: &["lent bytes", "block", "method"],
        numbers: &["used"],
        outs: USED_OUT,
        rows: &[0, 1, 2, 3, 4, 9, 10, 11, 12, 18],
        expect: expect_request,
        ask: |input, answer| {
            let [_, block, method, ..] = input.texts;
            ask_change(input, answer, |image, used, _| {
                port::image_update_from_request(input.settings, method, block, image, used)
            })
        },
        inputs: |feed| {
            each_image(feed, make_request);
            for image in records::templates() {
                let before = image::decode(&image).expect("an image").dialog;
                order::each_request(&before, &image, &mut |call| feed.compare(&call.input()));
            }
        },
        fault: "`ack` counts as ACK",
        distort: distort_request,
    },
    Operation {
        name: RESPONSE,
        against: "Rust Dialog::update_from_response",
        texts: &["lent bytes", "block"],
        numbers: &["used", "status"],
        outs: USED_OUT,
        rows: &[0, 1, 2, 3, 18],
        expect: expect_response,
        ask: |input, answer| {
            let status = input.numbers[1] as u16;
            ask_change(input, answer, |image, used, _| {
                port::image_update_from_response(input.settings, status, input.texts[1], image, used)
            })
        },
        inputs: |feed| {
            each_image(feed, make_response);
            for image in records::templates() {
                order::each_response(&image, &mut |call| feed.compare(&call.input()));
            }
        },
        fault: "an interval without a refresher leaves the old refresher",
        distort: |input, answer| {
            let refresher = before(input).and_then(|dialog| dialog.refresher());
            room::distort_record(answer, |parts| parts.refresher = parts.refresher.or(refresher));
        },
    },
    Operation {
        name: CONFIRM,
        against: "Rust Dialog::confirm",
        texts: &["lent bytes"],
        numbers: &["used"],
        outs: USED_OUT,
        rows: &[0, 3],
        expect: expect_confirm,
        ask: |input, answer| {
            ask_change(input, answer, |image, used, _| {
                port::image_confirm(input.settings, image, used)
            })
        },
        inputs: |feed| each_image(feed, |random, image| make_plain(random, image, expect_confirm)),
        fault: "a Terminated record becomes Confirmed",
        distort: |_, answer| room::distort_record(answer, |parts| parts.state = DialogStateType::Confirmed),
    },
    Operation {
        name: TERMINATE,
        against: "Rust Dialog::terminate",
        texts: &["lent bytes"],
        numbers: &["used"],
        outs: USED_OUT,
        rows: &[0, 3],
        expect: expect_terminate,
        ask: |input, answer| {
            ask_change(input, answer, |image, used, _| {
                port::image_terminate(input.settings, image, used)
            })
        },
        inputs: |feed| each_image(feed, |random, image| make_plain(random, image, expect_terminate)),
        fault: "the interval is dropped",
        distort: |_, answer| room::distort_record(answer, |parts| parts.seconds = None),
    },
    Operation {
        name: NEXT,
        against: "Rust Dialog::next_local_cseq",
        texts: &["lent bytes"],
        numbers: &["used"],
        outs: &[("used", Width::U64), ("number", Width::U32)],
        rows: &[0, 3, 18],
        expect: expect_next,
        ask: |input, answer| {
            ask_change(input, answer, |image, used, out| {
                lent_as(out, |number| {
                    port::image_next_local_cseq(input.settings, image, used, number)
                })
            })
        },
        inputs: |feed| each_image(feed, |random, image| make_plain(random, image, expect_next)),
        fault: "after 4,294,967,295 comes 1",
        distort: |input, answer| {
            if answer.number == 0 && before(input).is_some_and(|dialog| dialog.local_cseq() == u32::MAX) {
                answer.outs[1] = 1;
                room::distort_record(answer, |parts| parts.local = 1);
            }
        },
    },
    Operation {
        name: SET,
        against: "Rust Dialog::set_session_expires",
        texts: &["lent bytes"],
        numbers: &["used", "seconds"],
        outs: &[("used", Width::U64), ("least", Width::U64)],
        rows: &[0, 3, 13, 14, 18],
        expect: expect_set,
        ask: |input, answer| {
            let seconds = input.numbers[1];
            ask_change(input, answer, |image, used, least| {
                port::image_set_session_expires(input.settings, image, used, seconds, least)
            })
        },
        inputs: |feed| each_image(feed, make_set),
        fault: "the refresher is dropped",
        distort: |_, answer| room::distort_record(answer, |parts| parts.refresher = None),
    },
];

/// The port's change: on the image, the used length and the second out number.
fn ask_change(input: &Input, answer: &mut Answer, change: impl FnOnce(&mut [u8], &mut usize, &mut u64) -> u8) -> u8 {
    room::lend_image(input, answer);
    let [used, out, ..] = &mut answer.outs;
    lent_as(used, |used| change(room::lent(&mut answer.bytes), used, out))
}

/// An expected answer.
type Expect = fn(&Input, &mut Answer) -> Result<(), u8>;

/// A call of a change that is given nothing else.
fn make_plain(random: &mut Random, image: &[u8], expect: Expect) -> Call {
    with_room(random, Call::on_image(image), expect)
}

/// A request on the record.
fn make_request(random: &mut Random, image: &[u8]) -> Call {
    make_request_at(random, image, Settings::RUST)
}

/// The same at a site of these settings.
pub fn make_request_at(random: &mut Random, image: &[u8], settings: Settings) -> Call {
    let mut call = Call::on_image(image);
    call.settings = settings;
    let remote = image::decode(image).map_or(0, |record| record.dialog.remote_cseq());
    (call.texts[2], call.texts[1]) = calls::request(random, remote, settings.cseq_jump.max(1));
    with_room(random, call, expect_request)
}

/// A response on the record.
fn make_response(random: &mut Random, image: &[u8]) -> Call {
    let mut call = Call::on_image(image);
    call.numbers[1] = u64::from(calls::any_status(random));
    call.texts[1] = calls::response(random);
    with_room(random, call, expect_response)
}

/// Another interval.
fn make_set(random: &mut Random, image: &[u8]) -> Call {
    let mut call = Call::on_image(image);
    call.numbers[1] = calls::any_seconds(random);
    with_room(random, call, expect_set)
}

/// More bytes than any change can add.
const GENEROUS: usize = 10_000;

/// Gives the image room, about as much as the Rust's result needs; at times the used length is another.
fn with_room(random: &mut Random, mut call: Call, expect: Expect) -> Call {
    let used = call.texts[IMAGE].len();
    call.texts[IMAGE].resize(used + GENEROUS, 0);
    let mut answer = Answer::before(&[], 0);
    let accepted = bounds::quietly(|| expect(&call.input(), &mut answer)).is_ok();
    let result = if accepted { answer.outs[USED] as usize } else { used };
    let mut lent = calls::lent_for(random, result);
    if !random.one_in(40) {
        lent = lent.max(used);
    }
    call.texts[IMAGE].truncate(used);
    call.texts[IMAGE].resize(lent, random.next() as u8);
    if random.one_in(40) {
        let (lent, used) = (lent as u64, used as u64);
        call.numbers[USED] = random.pick(&[lent + 1, lent, used.saturating_sub(1), used + 1, 0, u64::MAX]);
    }
    call
}

/// The Rust's dialog after a request, or the number of its refusal.
fn expect_request(input: &Input, answer: &mut Answer) -> Result<(), u8> {
    let [_, block, method, ..] = input.texts;
    room::lend_image(input, answer);
    settings::permitted(input.settings)?;
    limit(REQUEST, &[("block, bytes", block), ("method, bytes", method)])?;
    let headers = rules::headers(block)?;
    let before = room::used_record(REQUEST, input)?.dialog;
    let mut dialog = before.clone();
    let request = request(method_of(method), headers);
    take_request(REQUEST, &mut dialog, &request, input.settings.cseq_jump)?;
    room::leave(REQUEST, answer, &dialog)?;
    meet_target(REQUEST, sizes(input, answer), [&before, &dialog]);
    Ok(())
}

/// The Rust's method on a request, or the number of its refusal. At another site's jump the run's own number rules say whether it is
/// taken, and the Rust is given the record with its remote number one below the request's; at the Rust's jump both must say the same.
pub fn take_request(operation: &'static str, dialog: &mut Dialog, request: &Request, jump: u32) -> Result<(), u8> {
    let before = dialog.clone();
    let cseq = private::parse_cseq_number(request.headers());
    let is_ack = request.method().as_str() == "ACK";
    meet_cseq(operation, &before, is_ack, cseq);
    let own = judged(before.remote_cseq(), is_ack, cseq, jump);
    if jump != Settings::RUST.cseq_jump {
        let cseq = own?;
        if !is_ack {
            set_remote_cseq(dialog, cseq - 1);
        }
    }
    let said = dialog.update_from_request(request).map_err(|error| {
        let zero = error == DialogError::InvalidCSeq && cseq == Some(0);
        if zero {
            9
        } else {
            error_number(error)
        }
    });
    assert_eq!(said, own.map(drop), "the run's own number rules, and the Rust's");
    if let Err(number) = said {
        assert_eq!(image::encode(dialog), image::encode(&before), "refused, but changed");
        return Err(number);
    }
    if let Some(contact) = private::extract_contact_uri(request.headers()) {
        bounds::number(operation, "Contact, estimate", estimate(&contact));
    }
    Ok(())
}

/// The number rules with the site's jump: the request's CSeq, or 4, 9, 10, 11, 12.
pub fn judged(remote: u32, is_ack: bool, cseq: Option<u32>, jump: u32) -> Result<u32, u8> {
    let cseq = cseq.ok_or(4)?;
    match cseq {
        0 => Err(9),
        _ if is_ack && cseq != remote => Err(11),
        _ if is_ack => Ok(cseq),
        0x8000_0000.. => Err(10),
        _ if remote == 0 => Ok(cseq),
        _ if cseq <= remote => Err(11),
        _ if cseq - remote > jump => Err(12),
        _ => Ok(cseq),
    }
}

/// Says which numbers a request met.
fn meet_cseq(operation: &'static str, before: &Dialog, is_ack: bool, cseq: Option<u32>) {
    let (Some(cseq), remote) = (cseq.map(u64::from), u64::from(before.remote_cseq())) else {
        return;
    };
    if is_ack {
        bounds::number(operation, "ACK, CSeq", cseq);
        bounds::above(operation, "ACK minus remote number", cseq, remote);
        if cseq == remote {
            bounds::number(operation, "ACK equal to remote number", cseq);
        }
    } else {
        bounds::number(operation, "CSeq", cseq);
        bounds::number(operation, "remote number", remote);
        if remote > 0 {
            bounds::above(operation, "CSeq minus remote number", cseq, remote);
        }
    }
}

/// How many bytes are used before an accepted change and after it, and how many are lent.
pub struct Sizes {
    pub before: usize,
    pub after: usize,
    pub lent: usize,
}

/// Those of a change of one image.
fn sizes(input: &Input, answer: &Answer) -> Sizes {
    Sizes {
        before: input.numbers[USED] as usize,
        after: answer.outs[USED] as usize,
        lent: input.texts[IMAGE].len(),
    }
}

/// Says whether an accepted result fits though all but its target grew, and only because its target became shorter.
pub fn meet_target(operation: &'static str, sizes: Sizes, [before, after]: [&Dialog; 2]) {
    let [old, new] = [before, after].map(|dialog| dialog.remote_target().as_str().len());
    let rest_before = sizes.before - old;
    let rest_after = sizes.after - new;
    if rest_after > rest_before {
        bounds::met(operation, "result", "fits though its numbers grow");
        if rest_after + old > sizes.lent {
            bounds::met(operation, "result", "fits by its shorter target alone");
        }
    }
}

/// Takes `ack` for ACK.
fn distort_request(input: &Input, answer: &mut Answer) {
    let [_, block, method, ..] = input.texts;
    if method.eq_ignore_ascii_case(b"ACK") {
        answer.number = ask_change(input, answer, |image, used, _| {
            port::image_update_from_request(input.settings, b"ACK", block, image, used)
        });
    }
}

/// The Rust's dialog after a response.
fn expect_response(input: &Input, answer: &mut Answer) -> Result<(), u8> {
    let block = input.texts[1];
    room::lend_image(input, answer);
    settings::permitted(input.settings)?;
    limit(RESPONSE, &[("block, bytes", block)])?;
    let headers = rules::headers(block)?;
    let before = room::used_record(RESPONSE, input)?.dialog;
    let mut dialog = before.clone();
    take_response(RESPONSE, &mut dialog, input.numbers[1] as u16, headers);
    room::leave(RESPONSE, answer, &dialog)?;
    meet_target(RESPONSE, sizes(input, answer), [&before, &dialog]);
    Ok(())
}

/// The Rust's method on a response of these headers.
pub fn take_response(operation: &'static str, dialog: &mut Dialog, status: u16, headers: Headers) {
    // Outside 100 to 699 the Rust can make no response; 600 is no 2xx either.
    let code = if (100..700).contains(&status) { status } else { 600 };
    let response = response(code, headers).expect("a status");
    meet_response(operation, dialog, status, &response);
    dialog.update_from_response(&response);
}

/// Says what a response met.
fn meet_response(operation: &'static str, before: &Dialog, status: u16, response: &Response) {
    match before.state() {
        DialogStateType::Early => bounds::number(operation, "status of an Early record", status),
        DialogStateType::Confirmed => bounds::number(operation, "status of a Confirmed record", status),
        DialogStateType::Terminated => {}
    }
    if before.state() == DialogStateType::Early && (200..300).contains(&status) {
        let routes = private::build_route_set(response.headers(), true);
        meet_routes(operation, "confirming, routes", "confirming, route's estimate", &routes);
    }
    if let Some(contact) = private::extract_contact_uri(response.headers()) {
        bounds::number(operation, "Contact, estimate", estimate(&contact));
    }
    if let (Some(interval), _) = private::extract_session_timer(response) {
        bounds::number(operation, "Session-Expires", interval.as_secs());
    }
}

/// The Rust's dialog after a change that can't be refused.
fn expect_plain(
    operation: &'static str,
    input: &Input,
    answer: &mut Answer,
    change: fn(&mut Dialog),
) -> Result<(), u8> {
    room::lend_image(input, answer);
    settings::permitted(input.settings)?;
    let Record { mut dialog, .. } = room::used_record(operation, input)?;
    change(&mut dialog);
    room::leave(operation, answer, &dialog)
}

/// The Rust's dialog, confirmed.
fn expect_confirm(input: &Input, answer: &mut Answer) -> Result<(), u8> {
    expect_plain(CONFIRM, input, answer, Dialog::confirm)
}

/// The Rust's dialog, terminated.
fn expect_terminate(input: &Input, answer: &mut Answer) -> Result<(), u8> {
    expect_plain(TERMINATE, input, answer, Dialog::terminate)
}

/// The Rust's next local number.
fn expect_next(input: &Input, answer: &mut Answer) -> Result<(), u8> {
    room::lend_image(input, answer);
    settings::permitted(input.settings)?;
    let Record { mut dialog, .. } = room::used_record(NEXT, input)?;
    let number = raise_local(NEXT, &mut dialog);
    room::leave(NEXT, answer, &dialog)?;
    answer.outs[1] = number;
    Ok(())
}

/// The Rust's method on the local number, which it answers.
pub fn raise_local(operation: &'static str, dialog: &mut Dialog) -> u64 {
    bounds::number(operation, "local number", dialog.local_cseq());
    u64::from(dialog.next_local_cseq())
}

/// The dialog that a change is given, if its used bytes are an image.
fn before(input: &Input) -> Option<Dialog> {
    let used = usize::try_from(input.numbers[USED]).ok()?;
    let record = image::decode(input.texts[IMAGE].get(..used)?)?;
    Some(record.dialog)
}

/// The Rust's interval.
fn expect_set(input: &Input, answer: &mut Answer) -> Result<(), u8> {
    room::lend_image(input, answer);
    settings::permitted(input.settings)?;
    let Record { mut dialog, .. } = room::used_record(SET, input)?;
    set_interval(SET, &mut dialog, input.numbers[1]).inspect_err(|number| {
        if *number == 13 {
            answer.outs[1] = 90;
        }
    })?;
    room::leave(SET, answer, &dialog)
}

/// The Rust's check of an interval in seconds. Over 32 bits its cast loses bits; document 01 gives 14.
pub fn set_interval(operation: &'static str, dialog: &mut Dialog, seconds: u64) -> Result<(), u8> {
    bounds::number(operation, "seconds", seconds);
    if seconds > u64::from(u32::MAX) {
        return Err(14);
    }
    let said = dialog.set_session_expires(Duration::from_secs(seconds));
    said.map_err(error_number)
}
