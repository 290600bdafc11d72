//! Section 1, RFC 3261: dialogs.

use super::held::Held;
use super::record::{made, plain, record, uri, Creation};
use super::{case, Case};
use crate::dialogs::encode;
use crate::dialogs::image::Parts;
use crate::store::call::{texts_of, Call};
use crate::store::dialogs::Dialogs;
use sip_dialog::DialogId;
use sip_dialog::DialogStateType::{Confirmed, Early, Terminated};

/// An Early record.
fn early(parts: &mut Parts) {
    parts.state = Early;
}

/// A creation by a 180.
fn ringing(given: &mut Creation) {
    given.status = 180;
}

/// The image of a short record with this local tag.
fn image(local_tag: &str, change: fn(&mut Parts)) -> Vec<u8> {
    let mut parts = plain();
    parts.id = DialogId::unchecked_new("c", local_tag, "R");
    change(&mut parts);
    encode(&parts.dialog())
}

/// A store of so many short records, all of one Call-ID.
pub fn many(count: usize, change: fn(&mut Parts)) -> Vec<u8> {
    (0..count)
        .flat_map(|number| image(&format!("l{number}"), change))
        .collect()
}

pub const CASES: &[Case] = &[
    case("1.37", "`new_uac` with 100 and both tags: Early", |row| {
        let record = made("new_uac", |given| given.status = 100);
        row.both(record.state(), "Early");
    }),
    case("1.38", "`new_uac` with method `BYE`: accepted", |row| {
        let record = made("new_uac", |given| given.method = "BYE");
        row.both(record.creation(), "accepted");
    }),
    case(
        "1.39",
        "`new_uas` of a request without Contact: target is the remote URI",
        |row| {
            let record = made("new_uas", |given| given.remote_uri = "sip:r");
            row.both(record.target(), "`sip:r`");
        },
    ),
    case(
        "1.40",
        "`new_uac` with a local URI that no header has: accepted",
        |row| {
            let record = made("new_uac", |given| given.local_uri = "sip:nowhere");
            row.both(record.creation(), "accepted");
        },
    ),
    case("1.41", "`new_uas` with the remote URI `tel:1`: 6", |row| {
        let record = made("new_uas", |given| given.remote_uri = "tel:1");
        row.both(record.creation(), "refused 6");
    }),
    case("1.42", "`new_uac` with the remote URI `sips:h`: secure", |row| {
        let record = made("new_uac", |given| given.remote_uri = "sips:h");
        row.both(record.secure(), "yes");
    }),
    case("1.43", "`new_uac` of a request without Call-ID: accepted", |row| {
        let record = made("new_uac", |given| given.request = vec!["CSeq:1 INVITE"]);
        row.both(record.creation(), "accepted");
    }),
    case("1.44", "`new_uac` with `CSeq:0`: 9", |row| {
        let record = made("new_uac", |given| given.request = vec!["CSeq:0"]);
        row.both(record.creation(), "refused 9");
    }),
    case(
        "1.45",
        "a put beside 10,000: 16. An Early put beside 100 Early of its Call-ID: 17",
        |row| {
            let mut full: Held<Dialogs> = Held::of(&many(10_000, |_| {}));
            row.both(full.check(&Call::Put(image("L", |_| {}))), "refused 16");
            let mut crowded: Held<Dialogs> = Held::of(&many(100, early));
            row.both(crowded.check(&Call::Put(image("L", early))), "refused 17");
        },
    ),
    case(
        "1.46",
        "Confirmed, 404 with `Contact:<sip:h>`: target `sip:h`. Early, 200 with it: target `sip:h`",
        |row| {
            let mut confirmed = record(|parts| parts.state = Confirmed);
            row.both(confirmed.response(404, &["Contact:<sip:h>"]), "taken");
            row.both(confirmed.target(), "`sip:h`");
            let mut early = record(early);
            row.both(early.response(200, &["Contact:<sip:h>"]), "taken");
            row.both(early.target(), "`sip:h`");
        },
    ),
    case("1.47", "200 with `Contact:<sip:h?a=b>`: target `sip:h?a=b`", |row| {
        let mut record = record(|_| {});
        row.both(record.response(200, &["Contact:<sip:h?a=b>"]), "taken");
        row.both(record.target(), "`sip:h?a=b`");
    }),
    case(
        "1.48",
        "secure, `INVITE` with `Contact:<sip:h>`: target `sip:h`",
        |row| {
            let mut record = record(|parts| parts.remote_uri = uri("sips:r"));
            row.both(record.secure(), "yes");
            row.both(record.request("INVITE", &["CSeq:2 INVITE", "Contact:<sip:h>"]), "taken");
            row.both(record.target(), "`sip:h`");
        },
    ),
    case("1.49", "`BYE` with `Contact:<sip:h>`: target `sip:h`", |row| {
        let mut record = record(|_| {});
        row.both(record.request("BYE", &["CSeq:2 BYE", "Contact:<sip:h>"]), "taken");
        row.both(record.target(), "`sip:h`");
    }),
    case(
        "1.50",
        "`INVITE` with `Contact:<sip:h>` taken, then answered with 488: target `sip:h`",
        |row| {
            let mut record = record(|_| {});
            row.both(record.request("INVITE", &["CSeq:2 INVITE", "Contact:<sip:h>"]), "taken");
            row.both(record.target(), "`sip:h`");
            row.both(record.response(488, &["CSeq:2 INVITE"]), "taken");
            row.both(record.target(), "`sip:h`");
        },
    ),
    case("1.51", "remote 5, `OPTIONS` with `CSeq:5 OPTIONS`: 11", |row| {
        let mut record = record(|parts| parts.remote = 5);
        row.both(record.request("OPTIONS", &["CSeq:5 OPTIONS"]), "refused 11");
    }),
    case(
        "1.52",
        "Early, 486: still Early. Confirmed, 481: still Confirmed",
        |row| {
            let mut early = record(early);
            row.both(early.response(486, &[]), "taken");
            row.both(early.state(), "Early");
            let mut confirmed = record(|parts| parts.state = Confirmed);
            row.both(confirmed.response(481, &[]), "taken");
            row.both(confirmed.state(), "Confirmed");
        },
    ),
    case(
        "1.53",
        "two Early records of one Call-ID, 200 to one: the other is still Early",
        |row| {
            let images = [image("L", early), image("M", early)];
            let mut store: Held<Dialogs> = Held::of(&images.concat());
            let [rust, port] = store.call(&Call::Response {
                id: texts_of(&DialogId::unchecked_new("c", "L", "R")),
                status: 200,
                block: Vec::new(),
            });
            let after = [image("L", |parts| parts.state = Confirmed), image("M", early)].concat();
            let words = |bytes: &[u8]| ["others", "Confirmed, Early"][usize::from(bytes == after)];
            row.rust(words(rust.store.used_bytes()), "Confirmed, Early");
            row.port(words(port.store.used_bytes()), "Confirmed, Early");
        },
    ),
    case("1.54", "`BYE` taken: the state stays", |row| {
        let mut record = record(|parts| parts.state = Confirmed);
        row.both(record.request("BYE", &["CSeq:2 BYE"]), "taken");
        row.both(record.state(), "Confirmed");
    }),
    case("1.55", "Terminated, remote 1, CSeq 2: taken", |row| {
        let mut record = record(|parts| parts.state = Terminated);
        row.both(record.request("INFO", &["CSeq:2 INFO"]), "taken");
        row.both(record.state(), "Terminated");
    }),
    case("1.56", "Early, 200 with `CSeq:2 PRACK`: Confirmed", |row| {
        let mut record = record(early);
        row.both(record.response(200, &["CSeq:2 PRACK"]), "taken");
        row.both(record.state(), "Confirmed");
    }),
    case(
        "1.57",
        "Early with one route, 200 without Record-Route: the route stays",
        |row| {
            let mut record = record(|parts| {
                early(parts);
                parts.routes = vec![uri("sip:a")];
            });
            row.both(record.response(200, &[]), "taken");
            row.both(record.route(0), "`sip:a`");
            row.both(record.route(1), "nothing");
        },
    ),
    case(
        "1.58",
        "`new_uas` by 180, then a 200 with two routes: both, reversed",
        |row| {
            let mut record = made("new_uas", ringing);
            row.both(record.response(200, &["Record-Route:<sip:a>,<sip:b>"]), "taken");
            row.both(record.route(0), "`sip:b`");
            row.both(record.route(1), "`sip:a`");
        },
    ),
    case(
        "1.59",
        "`new_uas` by 180, then 200 with `Contact:<sip:h>`: target `sip:h`",
        |row| {
            let mut record = made("new_uas", ringing);
            row.both(record.response(200, &["Contact:<sip:h>"]), "taken");
            row.both(record.target(), "`sip:h`");
        },
    ),
    case("1.60", "remote 3, `BYE` with `CSeq:4 INVITE`: taken", |row| {
        let mut record = record(|parts| parts.remote = 3);
        row.both(record.request("BYE", &["CSeq:4 INVITE"]), "taken");
    }),
    case(
        "1.61",
        "remote 1, `INFO` with a block of the line `CSeq:2 INFO`: taken",
        |row| {
            let mut record = record(|parts| parts.remote = 1);
            row.both(record.request("INFO", &["CSeq:2 INFO"]), "taken");
        },
    ),
    case(
        "1.62",
        "`new_uas` by 180 to an INVITE with `CSeq:1 INVITE`, then `INVITE` with `CSeq:2 INVITE`: taken",
        |row| {
            let mut record = made("new_uas", ringing);
            row.both(record.state(), "Early");
            row.both(record.request("INVITE", &["CSeq:2 INVITE"]), "taken");
        },
    ),
    case("1.63", "local tag `L`, 200 with `From:;tag=x`: taken", |row| {
        let mut record = record(early);
        let lines = ["Call-ID:c", "From:;tag=x", "To:;tag=R"];
        row.both(record.response(200, &lines), "taken");
        row.both(record.state(), "Confirmed");
    }),
];
