//! `new_uac` and `new_uas`. The Rust says only `None` where it refuses; its number comes from its own helpers, asked in
//! the order of its source. Where From or To of the response holds a semicolon, it is given other values in their place, and the
//! record gets the identifier of the run's own reading.

use super::calls::{self, Call};
use super::image;
use super::order;
use super::room;
use crate::answer::{lent_as, Answer, Input, Out, Width};
use crate::bounds;
use crate::messages::{request, response};
use crate::misreadings::EVERY_SEMICOLON;
use crate::random::Random;
use crate::rules::{self, LONGEST};
use crate::run::{Fault, Feed, Operation};
use crate::tags::{self, Message};
use crate::texts::each_replacement;
use sip_core::{Method, Request, Response, SipUri};
use sip_dialog::storage::{self, private};
use sip_dialog::{Dialog, DialogError, DialogId};

const OUTS: &[Out] = &[("length", Width::U64), ("least", Width::U64)];
const TEXTS: &[&str] = &["method", "request", "response", "local URI", "remote URI"];
const NUMBERS: &[&str] = &["status", "lent bytes"];
const ROWS: &[u8] = &[0, 1, 2, 4, 5, 6, 7, 8, 9, 10, 13, 14, 18];

pub const OPERATIONS: &[Operation] = &[
    Operation {
        name: "new_uac",
        against: "Rust Dialog::new_uac, tags as in extract_tag",
        texts: TEXTS,
        numbers: NUMBERS,
        outs: OUTS,
        rows: ROWS,
        expect: |input, answer| expect(input, answer, Side::Uac),
        ask: |input, answer| ask(input, answer, port::new_uac),
        inputs: |feed| each_creation(feed, Side::Uac),
        fault: "the routes keep the order of the block",
        distort: |_, answer| room::distort_record(answer, |parts| parts.routes.reverse()),
    },
    Operation {
        name: "new_uas",
        against: "Rust Dialog::new_uas, tags as in extract_tag",
        texts: TEXTS,
        numbers: NUMBERS,
        outs: OUTS,
        rows: ROWS,
        expect: |input, answer| expect(input, answer, Side::Uas),
        ask: |input, answer| ask(input, answer, port::new_uas),
        inputs: |feed| each_creation(feed, Side::Uas),
        fault: "the tags are those of uac",
        distort: |_, answer| {
            room::distort_record(answer, |parts| {
                let id = &parts.id;
                parts.id = DialogId::unchecked_new(id.call_id(), id.remote_tag(), id.local_tag());
            })
        },
    },
];

pub const UAC_FAULT: Fault = Fault {
    name: "new_uac-cut",
    operation: "new_uac",
    what: "every semicolon cuts, as in the Rust",
    distort: |input, answer| misread(input, answer, port::new_uac),
};

pub const UAS_FAULT: Fault = Fault {
    name: "new_uas-cut",
    operation: "new_uas",
    what: "every semicolon cuts, as in the Rust",
    distort: |input, answer| misread(input, answer, port::new_uas),
};

/// Which of the two makes the record.
#[derive(Clone, Copy)]
pub enum Side {
    Uac,
    Uas,
}

impl Side {
    /// The response that it reads the identifier from.
    fn message(self) -> Message {
        match self {
            Side::Uac => Message::ResponseUac,
            Side::Uas => Message::ResponseUas,
        }
    }

    /// The operation's name.
    pub fn name(self) -> &'static str {
        match self {
            Side::Uac => "new_uac",
            Side::Uas => "new_uas",
        }
    }
}

/// The texts of a good creation, each fed with every byte in every place.
const TEMPLATE: [&str; 5] = [
    "ACK",
    "CSeq: 1 A\r\nContact:<sip:a>\r\nRecord-Route:<sip:b>,<sip:c>\r\n",
    "Call-ID:c\r\nFrom:;tag=x\r\nTo:;tag=y\r\nContact:<sip:d>\r\nRecord-Route:<sip:e>\r\nSession-Expires:90\r\n",
    "sip:l",
    "sips:r",
];

/// Every byte in every place of the template, every choice of causes, then random creations, most of them good.
fn each_creation(feed: &mut Feed, side: Side) {
    for index in 0..TEMPLATE.len() {
        each_replacement(&TEMPLATE[index..=index], &mut |text| {
            let mut input = Input::number(200).and_number(1, 300);
            input.texts = TEMPLATE.map(str::as_bytes);
            feed.compare(&input.and_text(index, text));
        });
    }
    order::each_creation(&mut |call| feed.compare(&call.input()));
    for _ in 0..feed.calls {
        let call = make(&mut feed.random, side);
        feed.compare(&call.input());
    }
}

/// A random creation, with lent bytes about as large as the Rust's record.
pub fn make(random: &mut Random, side: Side) -> Call {
    let mut call = calls::creation(random, matches!(side, Side::Uac));
    let result = bounds::quietly(|| made(&call.input(), side)).map_or(100, |dialog| image::encode(&dialog).len());
    call.numbers[1] = calls::lent_for(random, result) as u64;
    call
}

/// Whether the Rust makes a record of a creation.
pub fn is_made(call: &Call, side: Side) -> bool {
    bounds::quietly(|| made(&call.input(), side)).is_ok()
}

/// The Rust's record as an image, in the lent bytes.
fn expect(input: &Input, answer: &mut Answer, side: Side) -> Result<(), u8> {
    let lent = input.numbers[1] as usize;
    room::lend_empty(answer, lent);
    bounds::number(side.name(), "lent bytes", lent);
    let dialog = made(input, side).inspect_err(|number| {
        if *number == 13 {
            answer.outs[1] = 90;
        }
    })?;
    room::leave(side.name(), answer, &dialog)
}

/// The Rust's record, or the number of its refusal: 1, 2, 6, then the Rust's own.
fn made(input: &Input, side: Side) -> Result<Dialog, u8> {
    let [method, request_block, response_block, local, remote] = input.texts;
    let texts = [
        ("method, bytes", method),
        ("request, bytes", request_block),
        ("response, bytes", response_block),
        ("local URI, bytes", local),
        ("remote URI, bytes", remote),
    ];
    limit(side.name(), &texts)?;
    let request_headers = rules::headers(request_block)?;
    rules::headers(response_block)?;
    let local = uri(local)?;
    let remote = uri(remote)?;
    let id = identifier(response_block, side);
    let response_headers = rules::headers(&tags::without_held(response_block))?;
    let status = input.numbers[0] as u16;
    bounds::number(side.name(), "status", status);
    let request = request(method_of(method), request_headers);
    // Outside 100 to 699 the Rust can make no response; 600 makes no dialog either.
    let code = if (100..700).contains(&status) { status } else { 600 };
    let response = response(code, response_headers).expect("a status");
    let number = refusal(&request, &response, &local, &remote, side);
    let dialog = match side {
        Side::Uac => Dialog::new_uac(&request, &response, local, remote),
        Side::Uas => Dialog::new_uas(&request, &response, local, remote),
    };
    assert_eq!(dialog.is_some(), number.is_ok(), "the helpers' number isn't the Rust's");
    number.map(|()| {
        let mut dialog = dialog.expect("made");
        // The Rust's own, but where the response holds a semicolon.
        storage::set_id(&mut dialog, id.expect("the made dialog's"));
        dialog
    })
}

/// The identifier of the response.
fn identifier(block: &[u8], side: Side) -> Option<DialogId> {
    let parts = tags::identifier(side.name(), block, side.message());
    tags::meet_answer(side.name(), tags::block_holds(block), parts.is_some());
    let id = parts.map(|parts| tags::id_of(block, &parts))?;
    bounds::number(side.name(), "Call-ID, bytes", id.call_id().len());
    bounds::number(side.name(), "local tag, bytes", id.local_tag().len());
    bounds::number(side.name(), "remote tag, bytes", id.remote_tag().len());
    Some(id)
}

/// Refusal 1 for any of the texts, each given with what it is bounded as.
pub fn limit(operation: &'static str, texts: &[(&'static str, &[u8])]) -> Result<(), u8> {
    let fits = texts.iter().all(|(_, text)| text.len() <= LONGEST);
    for (what, text) in texts {
        if fits || text.len() > LONGEST {
            bounds::number(operation, what, text.len());
        }
    }
    fits.then_some(()).ok_or(1)
}

/// A given URI: 6.
fn uri(text: &[u8]) -> Result<SipUri, u8> {
    let text = std::str::from_utf8(text).map_err(|_| 6)?;
    SipUri::parse(text).map_err(|_| 6)
}

/// The method of any bytes: only exactly `ACK` means something to the Rust.
pub fn method_of(bytes: &[u8]) -> Method {
    Method::exact(std::str::from_utf8(bytes).unwrap_or("?"))
}

/// The number of the first of the Rust's helpers that refuses, in the order of its source.
fn refusal(request: &Request, response: &Response, local: &SipUri, remote: &SipUri, side: Side) -> Result<(), u8> {
    let (id, headers) = match side {
        Side::Uac => (DialogId::from_response_uac(response), response.headers()),
        Side::Uas => (DialogId::from_response_uas(response), request.headers()),
    };
    id.ok_or(4)?;
    if !(100..300).contains(&response.code()) {
        return Err(5);
    }
    let contact = private::extract_contact_uri(headers);
    let from_contact = if contact.is_some() {
        "Contact's"
    } else {
        "the remote URI's"
    };
    let target = contact.unwrap_or_else(|| remote.clone());
    measure(side, "local URI, estimate", local)?;
    measure(side, "remote URI, estimate", remote)?;
    measure(side, "target, estimate", &target)?;
    bounds::met(side.name(), "target", from_contact);
    let routes = private::build_route_set(headers, matches!(side, Side::Uac));
    meet_routes(side.name(), "routes", "route, estimate", &routes);
    private::validate_route_set(&routes.map_err(error_number)?).map_err(error_number)?;
    let cseq = private::parse_cseq_number(request.headers()).ok_or(4)?;
    bounds::number(side.name(), "CSeq", cseq);
    private::validate_cseq(cseq).map_err(error_number)?;
    if let (Some(interval), _) = private::extract_session_timer(response) {
        bounds::number(side.name(), "Session-Expires", interval.as_secs());
        private::validate_session_expires(interval).map_err(error_number)?;
    }
    Ok(())
}

/// The Rust's measure of a URI: 7.
fn measure(side: Side, what: &'static str, uri: &SipUri) -> Result<(), u8> {
    bounds::number(side.name(), what, estimate(uri));
    private::validate_uri(uri).map_err(error_number)
}

/// The estimate of a URI, as document 01 has it.
pub fn estimate(uri: &SipUri) -> usize {
    uri.user().map_or(0, str::len) + uri.host().len() + uri.port().map_or(0, |_| 6) + 10
}

/// Says how many routes were read, or that a 51st was met, and the largest estimate.
pub fn meet_routes(
    operation: &'static str,
    count: &'static str,
    largest: &'static str,
    routes: &Result<Vec<SipUri>, DialogError>,
) {
    match routes {
        Ok(routes) => {
            bounds::number(operation, count, routes.len());
            if let Some(estimate) = routes.iter().map(estimate).max() {
                bounds::number(operation, largest, estimate);
            }
        }
        Err(DialogError::UriTooLong { actual, .. }) => bounds::number(operation, largest, actual),
        Err(_) => bounds::met(operation, count, "51"),
    }
}

/// The number of an error of the Rust. `InvalidCSeq` is 9 or 11 by the number's value: 11 here.
pub fn error_number(error: DialogError) -> u8 {
    match error {
        DialogError::MissingHeader => 4,
        DialogError::UriTooLong { .. } => 7,
        DialogError::RouteSetTooLarge { .. } => 8,
        DialogError::CSeqZero => 9,
        DialogError::CSeqTooLarge { .. } => 10,
        DialogError::InvalidCSeq => 11,
        DialogError::CSeqJumpTooLarge { .. } => 12,
        DialogError::SessionExpiresTooSmall { min: 90, .. } => 13,
        DialogError::SessionExpiresTooLarge { .. } => 14,
        DialogError::TooManyDialogs { max: 10_000 } => 16,
        DialogError::TooManyDialogs { max: 100 } => 17,
        other => panic!("the Rust says {other}"),
    }
}

/// A creation of the port.
type Create = fn(&port::Creation, &mut [u8], &mut usize, &mut u64) -> u8;

/// The port's record.
fn ask(input: &Input, answer: &mut Answer, create: Create) -> u8 {
    let [method, request, response, local_uri, remote_uri] = input.texts;
    let [status, lent, ..] = input.numbers;
    room::lend_empty(answer, lent as usize);
    let given = port::Creation {
        method,
        request,
        status: status as u16,
        response,
        local_uri,
        remote_uri,
    };
    let [length, least, ..] = &mut answer.outs;
    lent_as(length, |length| {
        create(&given, room::lent(&mut answer.bytes), length, least)
    })
}

/// A planted fault: the port is asked with the tags that every semicolon cuts.
fn misread(input: &Input, answer: &mut Answer, create: Create) {
    if rules::headers(input.texts[2]).is_ok() {
        let response = tags::with_tags_by(&EVERY_SEMICOLON, input.texts[2]);
        *answer = Answer::before(OUTS, answer.pattern);
        answer.number = ask(&input.and_text(2, &response), answer, create);
    }
}
