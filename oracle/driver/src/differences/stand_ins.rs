//! Section 2: document 01's stand-ins. The Rust's side is the stand-in, and the Rust's own code over it.

use super::calls::{block, check, expires, number, number_in, part, uri, user};
use super::record::record;
use super::row::Said;
use super::{case, Case};
use crate::answer::Input;
use sip_core::Headers;

/// Whether some bytes are a block.
fn form(bytes: &[u8]) -> Said {
    check("check_block", &Input::text(bytes))
}

/// A Session-Expires value.
fn value(text: &str) -> Said {
    expires("parse_session_expires", text.as_bytes())
}

pub const CASES: &[Case] = &[
    case("2.1", "`A:`, CRLF, one space, CRLF: 2", |row| {
        row.both(form(b"A:\r\n \r\n"), "refused 2");
    }),
    case("2.2", "`A :`: 2", |row| row.both(form(b"A :\r\n"), "refused 2")),
    case("2.3", "`!:`: 2", |row| row.both(form(b"!:\r\n"), "refused 2")),
    case("2.4", "`A:é`: 2", |row| {
        row.both(form("A:é\r\n".as_bytes()), "refused 2");
    }),
    case("2.5", r#"`A:"\`, the byte 1, `"`: 2"#, |row| {
        row.both(form(b"A:\"\\\x01\"\r\n"), "refused 2");
    }),
    case("2.6", "a block of 8,193 bytes: taken by the Rust's side, 1", |row| {
        let block = format!("A:{}\r\n", "x".repeat(8193 - 4));
        let read = Headers::parse(block.as_bytes()).is_some();
        row.rust(["unreadable", "taken"][usize::from(read)], "taken");
        row.port(form(block.as_bytes()).port, "refused 1");
    }),
    case("2.7", "`CSeq:1 ACK`, `CSeq:2 ACK`: 1", |row| {
        row.both(number_in("cseq_number", &["CSeq:1 ACK", "CSeq:2 ACK"]), "1");
    }),
    case("2.8", "remote 1, the empty method, `CSeq:2 X`: taken", |row| {
        let mut record = record(|parts| parts.remote = 1);
        row.both(record.request("", &["CSeq:2 X"]), "taken");
    }),
    case("2.9", "`v:1`, asked for `Via`: nothing", |row| {
        let input = block(&["v:1"]);
        row.both(part("header", &Input::text(&input).and_text(1, b"Via")), "nothing");
    }),
    case("2.10", "`sip:.`: readable", |row| row.both(uri("sip:."), "accepted")),
    case("2.11", "`sip:[.]`: readable", |row| {
        row.both(uri("sip:[.]"), "accepted")
    }),
    case("2.12", "`sip:#@h`: readable", |row| {
        row.both(uri("sip:#@h"), "accepted")
    }),
    case("2.13", "`sip:u:p@h`: user `u:p`, estimate 14", |row| {
        row.both(user("sip:u:p@h"), "`u:p`");
        row.both(number("uri_estimate", &Input::text(b"sip:u:p@h")), "14");
    }),
    case("2.14", "`sip:h;`: readable", |row| row.both(uri("sip:h;"), "accepted")),
    case("2.15", "`sip:h:000001` and `sip:h:65536`: 6", |row| {
        row.both(uri("sip:h:000001"), "refused 6");
        row.both(uri("sip:h:65536"), "refused 6");
    }),
    case("2.16", "value `0;refresher =uac`: 0 s, none", |row| {
        row.both(value("0;refresher =uac"), "0 s, none");
    }),
    case("2.17", "value `0;`: 0 s, none", |row| {
        row.both(value("0;"), "0 s, none")
    }),
    case("2.18", r#"value `0;a=";refresher=uac;"`: 0 s, uac"#, |row| {
        row.both(value(r#"0;a=";refresher=uac;""#), "0 s, uac");
    }),
    case("2.19", "value `0;refresher=uac;refresher=uas`: 0 s, uac", |row| {
        row.both(value("0;refresher=uac;refresher=uas"), "0 s, uac");
    }),
    case("2.20", "value `0`: 0 s", |row| row.both(value("0"), "0 s, none")),
    case("2.21", "value `4294967296`: nothing", |row| {
        row.both(value("4294967296"), "nothing");
    }),
];
