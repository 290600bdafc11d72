//! Times of creations and updates of one record. The port is given blocks and writes an image; the Rust is given messages
//! that were parsed before, or parses them by the stand-in, and makes or changes a `Dialog`.

use super::{table_from, Side};
use crate::dialogs::encode;
use crate::messages::{request, response};
use port::Settings;
use sip_core::{Headers, Method, Request, Response, SipUri};
use sip_dialog::storage::set_remote_cseq;
use sip_dialog::Dialog;
use std::cell::RefCell;
use std::hint::black_box;

/// The smallest block that has all lines of a message.
const SMALLEST: usize = 256;

const LOCAL: &str = "sip:alice@example.org";
const REMOTE: &str = "sip:bob@example.com";

/// Room for an image.
const ROOM: usize = 32_768;

/// Times creation as uac and uas, a request and a response.
pub fn dialogs() {
    let title = "new_uac, request and response of this size each";
    table_from(SMALLEST, title, message, |block| creation(block, UAC));
    let title = "new_uas, request and response of this size each";
    table_from(SMALLEST, title, message, |block| creation(block, UAS));
    table_from(SMALLEST, "update_from_request, INVITE", message, update_from_request);
    table_from(
        SMALLEST,
        "update_from_response, 200 on a Confirmed record",
        message,
        update_from_response,
    );
}

/// A block with the lines of a request and of a response, filled by Via lines.
fn message(size: usize) -> Vec<u8> {
    let front = b"Call-ID: a84b4c76e66710@pc33.example.org\r\nFrom: <sip:alice@example.org>;tag=1928301774\r\n\
        To: <sip:bob@example.com>;tag=a6c85cf\r\nCSeq: 8 INVITE\r\nContact: <sip:bob@192.0.2.4>\r\n\
        Record-Route: <sip:p1.example.com;lr>\r\n";
    let line = b"Via: SIP/2.0/UDP h;rport\r\n";
    let spare = size - front.len() - b"Q: \r\n".len();
    let filling = vec![b'x'; spare % line.len()];
    [
        front,
        line.repeat(spare / line.len()).as_slice(),
        b"Q: ",
        &filling,
        b"\r\n",
    ]
    .concat()
}

/// The port's creation and the Rust's.
type Creator = (
    fn(&port::Creation, &mut [u8], &mut usize, &mut u64) -> u8,
    fn(&Request, &Response, SipUri, SipUri) -> Option<Dialog>,
);
const UAC: Creator = (port::new_uac, Dialog::new_uac);
const UAS: Creator = (port::new_uas, Dialog::new_uas);

/// A request of the stand-in over these headers.
pub fn parsed_request(block: &[u8]) -> Request {
    request(Method::Invite, Headers::parse(block).expect("a block"))
}

/// A response of the stand-in over these headers.
pub fn parsed_response(block: &[u8]) -> Response {
    response_of(200, block)
}

/// The same of this status.
fn response_of(status: u16, block: &[u8]) -> Response {
    response(status, Headers::parse(block).expect("a block")).expect("a status")
}

/// The URI of a text.
fn uri(text: &str) -> SipUri {
    SipUri::parse(text).expect("readable")
}

/// A dialog made from one block as request and as response of this status.
pub fn made(block: &[u8], status: u16) -> Dialog {
    let (request, response) = (parsed_request(block), response_of(status, block));
    Dialog::new_uas(&request, &response, uri(LOCAL), uri(REMOTE)).expect("made")
}

/// A creation from one block as request and response.
fn creation(block: &[u8], (port, rust): Creator) -> Vec<Side<'_>> {
    let out = RefCell::new(vec![0; ROOM]);
    let (request, response) = (parsed_request(block), parsed_response(block));
    let (local, remote) = (uri(LOCAL), uri(REMOTE));
    vec![
        (
            "Rattle",
            Box::new(move || {
                let (mut length, mut least) = (0, 0);
                let given = port::Creation {
                    method: b"INVITE",
                    request: block,
                    status: 200,
                    response: block,
                    local_uri: LOCAL.as_bytes(),
                    remote_uri: REMOTE.as_bytes(),
                };
                let number = port(black_box(&given), &mut out.borrow_mut(), &mut length, &mut least);
                assert_eq!(number, 0, "accepted");
                black_box(length);
            }),
        ),
        (
            "stand-in parse, Rust",
            Box::new(move || {
                let block = black_box(block);
                let (request, response) = (parsed_request(block), parsed_response(block));
                drop(black_box(rust(&request, &response, uri(LOCAL), uri(REMOTE))));
            }),
        ),
        (
            "Rust, already parsed",
            Box::new(move || {
                let (local, remote) = (local.clone(), remote.clone());
                drop(black_box(rust(
                    black_box(&request),
                    black_box(&response),
                    local,
                    remote,
                )));
            }),
        ),
    ]
}

/// A request on a record. Before each call the record is put back: in the image by a copy, in the Rust by its number.
fn update_from_request(block: &[u8]) -> Vec<Side<'_>> {
    let mut before = made(block, 200);
    set_remote_cseq(&mut before, 7);
    let image = encode(&before);
    let lent = RefCell::new(vec![0; ROOM]);
    let parsed = parsed_request(block);
    let [of_text, of_parsed] = [before.clone(), before].map(RefCell::new);
    vec![
        (
            "Rattle",
            Box::new(move || {
                let lent = &mut lent.borrow_mut()[..];
                lent[..image.len()].copy_from_slice(&image);
                let mut used = image.len();
                let number =
                    port::image_update_from_request(Settings::RUST, b"INVITE", black_box(block), lent, &mut used);
                assert_eq!(number, 0, "accepted");
                black_box(used);
            }),
        ),
        (
            "stand-in parse, Rust",
            Box::new(move || {
                let dialog = &mut of_text.borrow_mut();
                set_remote_cseq(dialog, 7);
                let said = dialog.update_from_request(&parsed_request(black_box(block)));
                assert!(black_box(said).is_ok(), "accepted");
            }),
        ),
        (
            "Rust, already parsed",
            Box::new(move || {
                let dialog = &mut of_parsed.borrow_mut();
                set_remote_cseq(dialog, 7);
                let said = dialog.update_from_request(black_box(&parsed));
                assert!(black_box(said).is_ok(), "accepted");
            }),
        ),
    ]
}

/// A 200 on a Confirmed record, which it leaves as it is.
fn update_from_response(block: &[u8]) -> Vec<Side<'_>> {
    let dialog = made(block, 200);
    let mut image = encode(&dialog);
    let mut used = image.len();
    image.resize(ROOM, 0);
    let lent = RefCell::new(image);
    port::image_update_from_response(Settings::RUST, 200, block, &mut lent.borrow_mut(), &mut used);
    let parsed = parsed_response(block);
    let [of_text, of_parsed] = [dialog.clone(), dialog].map(RefCell::new);
    vec![
        (
            "Rattle",
            Box::new(move || {
                let mut used = used;
                let number = port::image_update_from_response(
                    Settings::RUST,
                    200,
                    black_box(block),
                    &mut lent.borrow_mut(),
                    &mut used,
                );
                assert_eq!(number, 0, "accepted");
                black_box(used);
            }),
        ),
        (
            "stand-in parse, Rust",
            Box::new(move || {
                let dialog = &mut of_text.borrow_mut();
                dialog.update_from_response(&parsed_response(black_box(block)));
            }),
        ),
        (
            "Rust, already parsed",
            Box::new(move || {
                of_parsed.borrow_mut().update_from_response(black_box(&parsed));
            }),
        ),
    ]
}
