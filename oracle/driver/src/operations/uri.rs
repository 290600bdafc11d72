//! SIP URIs: reading, the estimate, and the URI in a header value.

use super::{lent_part, take_part, PART};
use crate::answer::{lent_as, Answer, Input, Width, NOTHING};
use crate::places;
use crate::rules;
use crate::run::{Feed, Operation};
use crate::texts::{each_sequence, each_value, Values};
use crate::uris::uri_text;
use sip_core::SipUri;
use sip_dialog::storage::private;
use sip_dialog::DialogError;

pub const OPERATIONS: &[Operation] = &[
    Operation {
        name: "sip_uri",
        against: "stand-in from 01 (SipUri)",
        texts: &["text"],
        numbers: &[],
        outs: &[
            ("secure", Width::U8),
            ("user", Width::U64),
            ("user length", Width::U64),
            ("host", Width::U64),
            ("host length", Width::U64),
            ("has port", Width::U8),
            ("port", Width::U16),
        ],
        rows: &[0, 1, 6],
        expect: expect_sip_uri,
        ask: ask_sip_uri,
        inputs: each_uri,
        fault: "the last @ ends the user, not the first",
        distort: distort_sip_uri,
    },
    Operation {
        name: "uri_estimate",
        against: "Rust validate_uri over the stand-in SipUri",
        texts: &["text"],
        numbers: &[],
        outs: &[("estimate", Width::U64)],
        rows: &[0, 1, 6, 7],
        expect: expect_estimate,
        ask: ask_estimate,
        inputs: each_uri,
        fault: "a port counts by its digits, not 6",
        distort: distort_estimate,
    },
    Operation {
        name: "parse_uri_from_header",
        against: "Rust parse_uri_from_header over the stand-in SipUri",
        texts: &["value"],
        numbers: &[],
        outs: PART,
        rows: &[0, 1, 2, NOTHING],
        expect: expect_uri_from_header,
        ask: ask_uri_from_header,
        inputs: |feed| each_value(feed, &VALUES, &|feed, value| feed.compare(&Input::text(value))),
        fault: "`<` is honoured only outside quotes",
        distort: distort_uri_from_header,
    },
];

const TEXTS: Values = Values {
    templates: &["sip:u.7@h-1.x:80;p?q", "sips:[1a:.F]:1", "SIP:h"],
    pieces: &["sip:", "sips:", "S", "a", "@", ":", ";", "[", "]", "65535", "6", "."],
    longest: 4,
    write: uri_text,
    fillers: b"a@:;0.?<",
};

/// What may follow the scheme.
const AFTER_SCHEME: &[&str] = &["a", "@", ":", ";", "?", "[", "]", "6", "5535", "-", "_"];

/// Every short text, every short text after the scheme, then random ones.
fn each_uri(feed: &mut Feed) {
    each_sequence(AFTER_SCHEME, 5, &mut |rest| {
        let text = [b"sip:", rest].concat();
        feed.compare(&Input::text(&text));
    });
    each_value(feed, &TEXTS, &|feed, text| feed.compare(&Input::text(text)));
}

const VALUES: Values = Values {
    templates: &["\"n\" <sip:u@h:5> ;x", "sip:a ;b"],
    pieces: &["sip:", "a", "@", "<", ">", "\"", ";", " ", "\t", ",", "x"],
    longest: 5,
    write: |random| {
        let name = random.pick(&["", "\"a\" ", "b ", "\"a<b\" ", "<", "\"", "a;b"]);
        let open = random.pick(&["<", "<", "< ", "", ""]);
        let close = random.pick(&[">", ">", "\t>", "", ";x>", ">>"]);
        let tail = random.pick(&["", ";tag=1", " ", ", <sip:q@h>", "<sip:z>"]);
        let uri = uri_text(random);
        [
            name.as_bytes(),
            open.as_bytes(),
            &uri,
            close.as_bytes(),
            tail.as_bytes(),
        ]
        .concat()
    },
    fillers: b" \tax;<>\"",
};

/// A given URI: 1, then 6. Bytes over 127 are in no URI.
fn given_uri(text: &[u8]) -> Result<SipUri, u8> {
    rules::limit(&[text])?;
    let text = std::str::from_utf8(text).map_err(|_| 6)?;
    SipUri::parse(text).map_err(|_| 6)
}

/// The stand-in's parts, at their places; a user that isn't there lies at the host's.
fn expect_sip_uri(input: &Input, answer: &mut Answer) -> Result<(), u8> {
    let uri = given_uri(input.texts[0])?;
    let scheme = if uri.is_sips() { "sips:" } else { "sip:" }.len();
    let host = scheme + uri.user().map_or(0, |user| user.len() + 1);
    let user = if uri.user().is_some() { scheme } else { host };
    answer.outs[..6].copy_from_slice(&[
        u64::from(uri.is_sips()),
        user as u64,
        uri.user().map_or(0, str::len) as u64,
        host as u64,
        uri.host().len() as u64,
        u64::from(uri.port().is_some()),
    ]);
    if let Some(port) = uri.port() {
        answer.outs[6] = u64::from(port);
    }
    Ok(())
}

/// The port's parts.
fn ask_sip_uri(input: &Input, answer: &mut Answer) -> u8 {
    let outs = &mut answer.outs;
    let mut uri = port::Uri {
        secure: outs[0] as u8,
        user: outs[1] as usize,
        user_length: outs[2] as usize,
        host: outs[3] as usize,
        host_length: outs[4] as usize,
        has_port: outs[5] as u8,
        port: outs[6] as u16,
    };
    let number = port::sip_uri(input.texts[0], &mut uri);
    outs[..7].copy_from_slice(&[
        u64::from(uri.secure),
        uri.user as u64,
        uri.user_length as u64,
        uri.host as u64,
        uri.host_length as u64,
        u64::from(uri.has_port),
        u64::from(uri.port),
    ]);
    number
}

/// Cuts the user at the last @.
fn distort_sip_uri(input: &Input, answer: &mut Answer) {
    let text = input.texts[0];
    let last = text.iter().rposition(|byte| *byte == b'@');
    if let (0, Some(last)) = (answer.number, last) {
        answer.outs[2] = last as u64 - answer.outs[1];
        answer.outs[3] = last as u64 + 1;
    }
}

/// Document 01: user + host + 6 if a port + 10.
fn estimate(uri: &SipUri) -> usize {
    let port = if uri.port().is_some() { 6 } else { 0 };
    uri.user().map_or(0, str::len) + uri.host().len() + port + 10
}

/// The Rust's verdict on the estimate.
fn expect_estimate(input: &Input, answer: &mut Answer) -> Result<(), u8> {
    let uri = given_uri(input.texts[0])?;
    match private::validate_uri(&uri) {
        Ok(()) => {
            answer.outs[0] = estimate(&uri) as u64;
            Ok(())
        }
        Err(DialogError::UriTooLong { actual, .. }) => {
            assert_eq!(actual, estimate(&uri), "the run's estimate isn't the Rust's");
            Err(7)
        }
        Err(other) => panic!("validate_uri says {other}"),
    }
}

/// The port's estimate.
fn ask_estimate(input: &Input, answer: &mut Answer) -> u8 {
    lent_as(&mut answer.outs[0], |estimate| {
        port::uri_estimate(input.texts[0], estimate)
    })
}

/// Counts a port's own digits.
fn distort_estimate(input: &Input, answer: &mut Answer) {
    let port = given_uri(input.texts[0]).ok().and_then(|uri| uri.port());
    if let (0, Some(port)) = (answer.number, port) {
        answer.outs[0] -= 5 - port.to_string().len() as u64;
    }
}

/// The Rust's URI, at its place.
fn expect_uri_from_header(input: &Input, answer: &mut Answer) -> Result<(), u8> {
    let value = rules::value(input.texts[0])?;
    let uri = private::parse_uri_from_header(value);
    let place = places::uri(input.texts[0], 0..value.len());
    let text = uri.as_ref().map(SipUri::as_str);
    answer.give_part(places::held(input.texts[0], place, text));
    Ok(())
}

/// The port's URI.
fn ask_uri_from_header(input: &Input, answer: &mut Answer) -> u8 {
    let mut part = lent_part(answer);
    let number = port::parse_uri_from_header(input.texts[0], &mut part);
    take_part(answer, part);
    number
}

/// Takes the first `<` outside quotes.
fn distort_uri_from_header(input: &Input, answer: &mut Answer) {
    let value = input.texts[0];
    let mut quoted = false;
    let mut outside = None;
    for (place, byte) in value.iter().enumerate() {
        match byte {
            b'"' => quoted = !quoted,
            b'<' if !quoted && outside.is_none() => outside = Some(place),
            _ => {}
        }
    }
    if let (0, Some(place)) = (answer.number, outside) {
        answer.keep_all(PART);
        answer.give_part(places::uri(value, place..value.len()));
    }
}
