//! Section 1, RFC 3261: header values, identifiers, numbers.

use super::calls::{contact, elements, first_route, id_of, identifier, number, number_in, route_count, tag, uri_in};
use super::held::Held;
use super::record::{plain, record};
use super::{case, Case};
use crate::answer::Input;
use crate::dialogs::encode;
use crate::store::call::Call;
use crate::store::dialogs::Dialogs;

/// A URI whose host has 503 letters.
fn long_uri() -> String {
    format!("sip:{}", "h".repeat(503))
}

pub const CASES: &[Case] = &[
    case(
        "1.1",
        "`Call-ID:c`, `From:sip:h`, `To:sip:h;tag=b`: 4. `DialogId::new` of `c`, `a` and the empty text: 25",
        |row| {
            row.both(identifier(&["Call-ID:c", "From:sip:h", "To:sip:h;tag=b"]), "refused 4");
            row.both(id_of(["c", "a", ""]), "refused 25");
        },
    ),
    case(
        "1.2",
        "`Call-ID:c`, `From:tag=a`, `To:tag=b`: local `a`, remote `b`",
        |row| row.both(identifier(&["Call-ID:c", "From:tag=a", "To:tag=b"]), "`c`, `a`, `b`"),
    ),
    case(
        "1.3",
        "`Record-Route:` with 50 times `sip:h,` and `x`: 8. `Record-Route:sip:` with a host of 503 letters: 7",
        |row| {
            let many = format!("Record-Route:{}x", "sip:h,".repeat(50));
            row.both(route_count(&[&many]), "refused 8");
            row.both(route_count(&[&format!("Record-Route:{}", long_uri())]), "refused 7");
        },
    ),
    case("1.4", "`Record-Route:x,<sip:h>`: one route, `sip:h`", |row| {
        row.both(route_count(&["Record-Route:x,<sip:h>"]), "1");
        row.both(first_route(&["Record-Route:x,<sip:h>"]), "`sip:h`");
    }),
    case("1.5", "`Record-Route:sip:h;x`: one route, `sip:h`", |row| {
        row.both(route_count(&["Record-Route:sip:h;x"]), "1");
        row.both(first_route(&["Record-Route:sip:h;x"]), "`sip:h`");
    }),
    case("1.6", "`sip:` with a host of 503 letters: 7", |row| {
        row.both(number("uri_estimate", &Input::text(long_uri().as_bytes())), "refused 7");
    }),
    case("1.7", r#"value `"\"",a`: one element, the whole value"#, |row| {
        row.both(elements(r#""\"",a"#), r#"1: `\"\\\"\",a`"#);
    }),
    case("1.8", r#"value `"<",a`: one element, the whole value"#, |row| {
        row.both(elements(r#""<",a"#), r#"1: `\"<\",a`"#);
    }),
    case("1.9", "value `,`: no element", |row| row.both(elements(","), "0: ")),
    case(
        "1.10",
        r#"value `"<"<sip:h>`: no URI. `"<sip:a>"<sip:h>`: `sip:a`"#,
        |row| {
            row.both(uri_in(r#""<"<sip:h>"#), "nothing");
            row.both(uri_in(r#""<sip:a>"<sip:h>"#), "`sip:a`");
        },
    ),
    case("1.11", "value `sip:h?a`: `sip:h?a`", |row| {
        row.both(uri_in("sip:h?a"), "`sip:h?a`");
    }),
    case("1.12", "values `<sip:h>x` and `@<sip:h>`: `sip:h`", |row| {
        row.both(uri_in("<sip:h>x"), "`sip:h`");
        row.both(uri_in("@<sip:h>"), "`sip:h`");
    }),
    case("1.13", "value `< sip:h >`: `sip:h`", |row| {
        row.both(uri_in("< sip:h >"), "`sip:h`");
    }),
    case(
        "1.14",
        "`Contact:<sip:h>,<sip:i>`: `sip:h`. `Contact:sip:h,<sip:i>`: `sip:i`. `Contact:sip:h,sip:i`: nothing. `Contact:x` and `Contact:<sip:h>`: nothing",
        |row| {
            row.both(contact(&["Contact:<sip:h>,<sip:i>"]), "`sip:h`");
            row.both(contact(&["Contact:sip:h,<sip:i>"]), "`sip:i`");
            row.both(contact(&["Contact:sip:h,sip:i"]), "nothing");
            row.both(contact(&["Contact:x", "Contact:<sip:h>"]), "nothing");
        },
    ),
    case("1.15", r#"values `<"a>;tag=b` and `<\>;tag=b`: tag `b`"#, |row| {
        row.both(tag(r#"<"a>;tag=b"#), "`b`");
        row.both(tag(r"<\>;tag=b"), "`b`");
    }),
    case("1.16", "value `<<a>;tag=b>`: tag `b>`", |row| {
        row.both(tag("<<a>;tag=b>"), "`b>`");
    }),
    case(
        "1.17",
        "value `sip:h;tag =x`: 4. `sip:h;tag= x`: tag ` x`",
        |row| {
            row.both(tag("sip:h;tag =x"), "refused 4");
            row.both(tag("sip:h;tag= x"), "` x`");
        },
    ),
    case(
        "1.18",
        "value `sip:h;tag=`: the empty tag. `sip:h;tag=x y`: tag `x y`",
        |row| {
            row.both(tag("sip:h;tag="), "``");
            row.both(tag("sip:h;tag=x y"), "`x y`");
        },
    ),
    case("1.19", "value `tag=`: the empty tag", |row| row.both(tag("tag="), "``")),
    case("1.20", "value `sip:h;tag=a;tag=b`: tag `a`", |row| {
        row.both(tag("sip:h;tag=a;tag=b"), "`a`");
    }),
    case("1.21", "`Call-ID:`, `From:tag=`, `To:tag=`: three empty parts", |row| {
        row.both(identifier(&["Call-ID:", "From:tag=", "To:tag="]), "``, ``, ``");
    }),
    case("1.22", "a Call-ID of 257 bytes: 26", |row| {
        row.both(id_of([&"c".repeat(257), "a", "b"]), "refused 26");
    }),
    case("1.23", "three texts of one space each: accepted", |row| {
        row.both(id_of([" ", " ", " "]), "accepted");
    }),
    case("1.24", "`CSeq:+1 ACK`: 1", |row| {
        row.both(number_in("cseq_number", &["CSeq:+1 ACK"]), "1");
    }),
    case(
        "1.25",
        "`CSeq:1`: number 1, and 4 for the method. `CSeq:1 ACK x`: number 1, method 2",
        |row| {
            row.both(number_in("cseq_number", &["CSeq:1"]), "1");
            row.both(number_in("cseq_method", &["CSeq:1"]), "refused 4");
            row.both(number_in("cseq_number", &["CSeq:1 ACK x"]), "1");
            row.both(number_in("cseq_method", &["CSeq:1 ACK x"]), "2");
        },
    ),
    case("1.26", "`CSeq:x ACK`: 4 for the number, and method 2", |row| {
        row.both(number_in("cseq_number", &["CSeq:x ACK"]), "refused 4");
        row.both(number_in("cseq_method", &["CSeq:x ACK"]), "2");
    }),
    case("1.27", "remote 1, CSeq 1,002: 12", |row| {
        let mut record = record(|parts| parts.remote = 1);
        row.both(record.request("INFO", &["CSeq:1002 INFO"]), "refused 12");
    }),
    case("1.28", "remote 5, `INFO` with `CSeq:5 INFO`: 11", |row| {
        let mut record = record(|parts| parts.remote = 5);
        row.both(record.request("INFO", &["CSeq:5 INFO"]), "refused 11");
    }),
    case("1.29", "remote 2,147,483,647, CSeq 2,147,483,648: 10", |row| {
        let mut record = record(|parts| parts.remote = 2_147_483_647);
        row.both(record.request("INFO", &["CSeq:2147483648 INFO"]), "refused 10");
    }),
    case("1.30", "remote 0, CSeq 0: 9", |row| {
        let mut record = record(|parts| parts.remote = 0);
        row.both(record.request("INFO", &["CSeq:0 INFO"]), "refused 9");
    }),
    case("1.31", "INVITE 1, PRACK 2, ACK 1: 11", |row| {
        let mut record = record(|parts| parts.remote = 0);
        row.both(record.request("INVITE", &["CSeq:1 INVITE"]), "taken");
        row.both(record.request("PRACK", &["CSeq:2 PRACK"]), "taken");
        row.both(record.request("ACK", &["CSeq:1 ACK"]), "refused 11");
    }),
    case("1.32", "local 4,294,967,295: 4,294,967,295", |row| {
        let mut record = record(|parts| parts.local = u32::MAX);
        row.both(record.next_local_cseq(), "4294967295");
    }),
    case(
        "1.33",
        "remote 5 by an INVITE, then `CANCEL` with `CSeq:5 CANCEL`: 11",
        |row| {
            let mut record = record(|parts| parts.remote = 0);
            row.both(record.request("INVITE", &["CSeq:5 INVITE"]), "taken");
            row.both(record.request("CANCEL", &["CSeq:5 CANCEL"]), "refused 11");
        },
    ),
    case("1.34", "record with remote tag `R`, request with `From:;tag=r`: 15", |row| {
        let mut store: Held<Dialogs> = Held::of(&encode(&plain().dialog()));
        let from = |tag: &str| Call::Request {
            method: b"INFO".to_vec(),
            block: format!("CSeq:2 INFO\r\nCall-ID:c\r\nFrom:;tag={tag}\r\nTo:;tag=L\r\n").into(),
        };
        row.both(store.check(&from("r")), "refused 15");
        row.both(store.check(&from("R")), "accepted");
    }),
    case("1.35", "`CSeq:1 ack`: method 2", |row| {
        row.both(number_in("cseq_method", &["CSeq:1 ack"]), "2");
    }),
    case("1.36", "`CSeq:1 X`: 4 for the method", |row| {
        row.both(number_in("cseq_method", &["CSeq:1 X"]), "refused 4");
    }),
];
