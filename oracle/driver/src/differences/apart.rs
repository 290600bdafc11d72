//! Section 3: where the port departs from the Rust. Each side is asked by itself: the Rust by its own functions, without the run's
//! checks in front of it, and the port by its C functions. Where a row says that the Rust can't be given its input, that is shown
//! by the function that would have to take it; where there is none, the port alone is asked.

use super::dialogs::many;
use super::record::{made, plain, uri};
use super::{case, Case};
use crate::dialogs::creation::error_number;
use crate::dialogs::encode;
use crate::messages::{request, response};
use port::prack::{self, Response};
use port::store::{self, Place, Store};
use port::{rseq, Rack, Settings};
use sip_core::{Headers, Method, SipUri};
use sip_dialog::prack_validator::{extract_cseq_method, PrackValidator, RAck};
use sip_dialog::session_timer_manager::calculate_refresh_time;
use sip_dialog::storage::{hold, private};
use sip_dialog::DialogStateType::Early;
use sip_dialog::{extract_tag, Dialog, DialogId, DialogManager};
use smol_str::SmolStr;
use stand_in_std::time::set_clock;
use std::time::Duration;

/// The Rust's tag of a value.
fn rust_tag(value: &str) -> String {
    match extract_tag(&SmolStr::new(value)) {
        None => "None".into(),
        Some(tag) => format!("`{tag}`"),
    }
}

/// The port's tag of a value.
fn port_tag(value: &[u8]) -> String {
    let [mut place, mut length] = [0; 2];
    match port::extract_tag(value, &mut place, &mut length) {
        0 => format!("place {place}, length {length}"),
        number => number.to_string(),
    }
}

/// The Rust's method of a text.
fn rust_method(text: &str) -> String {
    let headers = Headers::of_one("CSeq", &format!("1 {text}"));
    extract_cseq_method(&headers).map_or("nothing".into(), |method| method.as_str().into())
}

/// The port's method of a text.
fn port_method(text: &str) -> String {
    let [mut found, mut method] = [0; 2];
    let number = port::method_number(text.as_bytes(), &mut found, &mut method);
    match (number, found) {
        (0, 0) => "nothing".into(),
        (0, _) => format!("method {method}"),
        (number, _) => number.to_string(),
    }
}

/// The Rust's check of an interval.
fn rust_seconds(seconds: u64) -> String {
    match private::validate_session_expires(Duration::from_secs(seconds)) {
        Ok(()) => "accepted".into(),
        Err(error) => error_number(error).to_string(),
    }
}

/// The port's.
fn port_seconds(seconds: u64) -> u8 {
    let mut image = encode(&plain().dialog());
    let (mut used, mut least) = (image.len(), 0);
    port::image_set_session_expires(Settings::RUST, &mut image, &mut used, seconds, &mut least)
}

/// Whether the Rust can be given something.
fn given<T>(thing: Option<T>) -> &'static str {
    match thing {
        None => "can't be given",
        Some(_) => "can be given",
    }
}

/// Three empty texts as the Rust's identifier.
fn empty_id() -> &'static str {
    given(DialogId::new("", "", "").ok())
}

/// A request on the record of this local tag.
fn block(local_tag: &str) -> String {
    format!("CSeq:2 INFO\r\nCall-ID:c\r\nFrom:;tag=R\r\nTo:;tag={local_tag}\r\n")
}

/// The Rust's request on a dialog of a manager: a copy is changed, and inserted again.
fn rust_request(manager: &DialogManager) -> String {
    let headers = Headers::parse(block("l0").as_bytes()).expect("a block");
    let request = request(Method::Info, headers);
    let mut copy = manager.find_by_request(&request).expect("held");
    copy.update_from_request(&request).expect("taken");
    match manager.insert(copy) {
        Ok(()) => "taken".into(),
        Err(error) => format!("insert refuses with {}", error_number(error)),
    }
}

/// The port's, on a store.
fn port_request(mut bytes: Vec<u8>) -> String {
    let mut used = bytes.len();
    let lent = Store {
        bytes: &mut bytes,
        used: &mut used,
    };
    match store::request(Settings::RUST, b"INFO", block("l0").as_bytes(), lent) {
        0 => "taken".into(),
        number => number.to_string(),
    }
}

/// A record's dialog with this local tag.
fn dialog(local_tag: &str) -> Dialog {
    let mut parts = plain();
    parts.id = DialogId::unchecked_new("c", local_tag, "R");
    parts.dialog()
}

/// The port's put into an empty store of 50 bytes, and the created count after it.
fn port_put(image: &[u8]) -> (u8, u64) {
    let (mut bytes, mut used, mut created) = ([0; 50], 0, 0);
    let lent = Store {
        bytes: &mut bytes,
        used: &mut used,
    };
    (store::put(Settings::RUST, image, lent, &mut created), created)
}

/// The port's look-up, in words.
fn found(number: u8, place: Place) -> String {
    match number {
        0 => format!("place {}, length {}", place.place, place.length),
        number => number.to_string(),
    }
}

/// Nothing found yet.
const NOWHERE: Place = Place { place: 99, length: 99 };

/// The plain record's identifier.
const ID: store::Id = [b"c", b"L", b"R"];

/// The port's call on a PRACK store, which is lent so many bytes and empty.
fn on_empty(lent: usize, call: impl FnOnce(Store) -> u8) -> u8 {
    let (mut bytes, mut used) = (vec![0; lent], 0);
    call(Store {
        bytes: &mut bytes,
        used: &mut used,
    })
}

/// A 180 to an INVITE.
const RINGING: Response = Response {
    rseq: 1,
    cseq: 1,
    method: 1,
    code: 180,
};

/// The port's RAck before a PRACK.
const NO_RACK: Rack = Rack {
    rseq: 0,
    cseq: 0,
    method: 0,
};

/// The Rust's validator after a PRACK without RAck on the empty text: its error, and how many times it holds.
fn without_rack() -> (String, usize) {
    let maps = dashmap::made();
    let validator = PrackValidator::new();
    let prack = request(Method::Prack, Headers::parse(b"").expect("a block"));
    let error = validator.validate_prack("", &prack).expect_err("no RAck");
    (error.0, dashmap::dump(maps + 1).len())
}

pub const CASES: &[Case] = &[
    case("3.1", "`extract_tag` of 8,193 spaces: `None`; 1", |row| {
        let spaces = " ".repeat(8193);
        row.rust(rust_tag(&spaces), "None");
        row.port(port_tag(spaces.as_bytes()), "1");
    }),
    case("3.2", "`extract_tag` of `é`: `None`; 2", |row| {
        row.rust(rust_tag("é"), "None");
        row.port(port_tag("é".as_bytes()), "2");
    }),
    case("3.3", "Call-ID `é`, tags `a` and `b`: accepted; 27", |row| {
        row.rust(given(DialogId::new("é", "a", "b").ok()), "can be given");
        row.port(port::dialog_id_new("é".as_bytes(), b"a", b"b"), "27");
    }),
    case(
        "3.4",
        "`extract_tag` of a vertical tab and `tag=`: the empty tag; 2",
        |row| {
            row.rust(rust_tag("\x0btag="), "``");
            row.port(port_tag(b"\x0btag="), "2");
        },
    ),
    case(
        "3.5",
        "`ınfo` (dotless i): INFO; nothing. Likewise `ınvite`, `meßage`",
        |row| {
            for (text, method) in [("ınfo", "INFO"), ("ınvite", "INVITE"), ("meßage", "MESSAGE")] {
                row.rust(rust_method(text), method);
                row.port(port_method(text), "nothing");
            }
        },
    ),
    case(
        "3.6",
        "4,294,967,296 s: too small; 14. 4,294,967,386 s, the smallest that the Rust takes so: accepted; 14",
        |row| {
            row.rust(rust_seconds(1 << 32), "13");
            row.port(port_seconds(1 << 32), "14");
            row.rust(rust_seconds((1 << 32) + 89), "13");
            row.rust(rust_seconds((1 << 32) + 90), "accepted");
            row.port(port_seconds((1 << 32) + 90), "14");
        },
    ),
    case(
        "3.7",
        "18,446,744,073,709,551,615: can't be reached; 18,446,744,073,709,551,615",
        |row| {
            row.port(port::record_created(u64::MAX), "18446744073709551615");
            row.port(port::record_terminated(u64::MAX), "18446744073709551615");
        },
    ),
    case(
        "3.8",
        "`calculate_refresh_time` of 18,446,744,073,709,551,616 ns: 9,223,372,036,854,775,808 ns; can't be given",
        |row| {
            let interval = Duration::new(18_446_744_073, 709_551_616);
            row.rust(interval.as_nanos(), "18446744073709551616");
            row.rust(calculate_refresh_time(interval).as_nanos(), "9223372036854775808");
            row.port(given(u64::try_from(interval.as_nanos()).ok()), "can't be given");
        },
    ),
    case(
        "3.9",
        "`set_session_expires` of 90 s and 1 ns: both are held; can't be given",
        |row| {
            let mut dialog = plain().dialog();
            dialog.set_session_expires(Duration::new(90, 1)).expect("taken");
            row.rust(dialog.session_expires().expect("held").as_nanos(), "90000000001");
        },
    ),
    case("3.10", "`extract_tag` of `x;tag=a`: `a`; place 6, length 1", |row| {
        row.rust(rust_tag("x;tag=a"), "`a`");
        row.port(port_tag(b"x;tag=a"), "place 6, length 1");
    }),
    case("3.11", "`extract_tag` of the empty value: `None`; 4", |row| {
        row.rust(rust_tag(""), "None");
        row.port(port_tag(b""), "4");
    }),
    case(
        "3.12",
        "RAck of 1, 1 and ACK in 0 lent bytes: `1 1 ACK`; 18. Method 0: can't be given; 28",
        |row| {
            let rack = RAck {
                rseq: 1,
                cseq: 1,
                method: Method::Ack,
            };
            row.rust(rack.format(), "1 1 ACK");
            let of_method = |method| Rack {
                rseq: 1,
                cseq: 1,
                method,
            };
            row.port(port::format_rack(&of_method(2), &mut [], &mut 0), "18");
            row.rust(given(Method::of_number(0)), "can't be given");
            row.port(port::format_rack(&of_method(0), &mut [0; 9], &mut 0), "28");
            row.port(port::method_text(0, &mut [0; 9], &mut 0), "28");
        },
    ),
    case("3.13", "`new_uac` with status 300: `None`; 5", |row| {
        let headers = |text: &[u8]| Headers::parse(text).expect("a block");
        let request = request(Method::Invite, headers(b"CSeq:1 INVITE\r\n"));
        let response = response(300, headers(b"Call-ID:c\r\nFrom:;tag=a\r\nTo:;tag=b\r\n")).expect("a status");
        let made_of = Dialog::new_uac(&request, &response, uri("sip:l"), uri("sip:r"));
        row.rust(["None", "made"][usize::from(made_of.is_some())], "None");
        let record = made("new_uac", |given| given.status = 300);
        row.port(record.creation().port, "refused 5");
    }),
    case("3.14", "`new_uac` with the local URI `x`: can't be given; 6", |row| {
        row.rust(given(SipUri::parse("x").ok()), "can't be given");
        let record = made("new_uac", |given| given.local_uri = "x");
        row.port(record.creation().port, "refused 6");
    }),
    case("3.15", "`confirm` of no bytes: can't be given; 3", |row| {
        row.port(port::image_confirm(Settings::RUST, &mut [], &mut 0), "3");
    }),
    case("3.16", "local 1, image of 41 bytes: 2; 2, and 41", |row| {
        let mut dialog = plain().dialog();
        let mut image = encode(&dialog);
        row.rust(dialog.next_local_cseq(), "2");
        let (mut used, mut number) = (image.len(), 0);
        let said = port::image_next_local_cseq(Settings::RUST, &mut image, &mut used, &mut number);
        row.port(format!("{said}: {number}, and {used}"), "0: 2, and 41");
    }),
    case("3.17", "`insert` at 5 ns: 5 ns; can't be asked", |row| {
        let manager = DialogManager::new();
        set_clock(5);
        manager.insert(plain().dialog()).expect("taken");
        let updated = manager.metrics.snapshot().last_updated;
        row.rust(format!("{updated:?}"), "Some(Instant(5))");
    }),
    case(
        "3.18",
        "`count` with the used length 1 of one byte: can't be given; 3",
        |row| row.port(store::count(Settings::RUST, &[0], 1, &mut 0), "3"),
    ),
    case(
        "3.19",
        "a request on a store of 10,000: `insert` refuses; taken",
        |row| {
            let manager = DialogManager::new();
            for number in 0..10_000 {
                manager.insert(dialog(&format!("l{number}"))).expect("taken");
            }
            row.rust(rust_request(&manager), "insert refuses with 16");
            row.port(port_request(many(10_000, |_| {})), "taken");
        },
    ),
    case(
        "3.20",
        "a request on an Early record beside 100 others, as a store handed in may hold: `insert` refuses; taken",
        |row| {
            let manager = DialogManager::new();
            for number in 0..101 {
                let mut parts = plain();
                parts.id = DialogId::unchecked_new("c", format!("l{number}"), "R");
                parts.state = Early;
                hold(&manager, parts.dialog());
            }
            row.rust(rust_request(&manager), "insert refuses with 17");
            row.port(port_request(many(101, |parts| parts.state = Early)), "taken");
        },
    ),
    case("3.21", "a put of no bytes: can't be given; 3", |row| {
        row.port(port_put(&[]).0, "3");
    }),
    case("3.22", "removal of a held record: the dialog; 0", |row| {
        let manager = DialogManager::new();
        manager.insert(plain().dialog()).expect("taken");
        let removed = manager.remove(plain().dialog().id()).expect("the dialog");
        row.rust(removed.id().local_tag(), "L");
        let mut bytes = encode(&plain().dialog());
        let mut used = bytes.len();
        let lent = Store {
            bytes: &mut bytes,
            used: &mut used,
        };
        row.port(store::remove(Settings::RUST, ID, lent, &mut 0), "0");
    }),
    case(
        "3.23",
        "`get` of the first record, an image of 41 bytes: the dialog; place 0, length 41",
        |row| {
            let manager = DialogManager::new();
            manager.insert(plain().dialog()).expect("taken");
            let held = manager.get(plain().dialog().id()).expect("the dialog");
            row.rust(held.id().local_tag(), "L");
            let bytes = encode(&plain().dialog());
            let mut place = NOWHERE;
            let number = store::get(Settings::RUST, ID, &bytes, bytes.len(), &mut place);
            row.port(found(number, place), "place 0, length 41");
        },
    ),
    case("3.24", "two records of one Call-ID: one of them; the first", |row| {
        let manager = DialogManager::new();
        let both = ["L", "M"].map(dialog);
        let bytes = both.each_ref().map(encode).concat();
        for dialog in both {
            manager.insert(dialog).expect("taken");
        }
        let picked = manager.find_by_call_id("c").expect("one of them");
        let one = ["L", "M"].contains(&picked.id().local_tag());
        row.rust(["another", "one of them"][usize::from(one)], "one of them");
        let mut place = NOWHERE;
        let number = store::find_by_call_id(Settings::RUST, b"c", &bytes, bytes.len(), &mut place);
        row.port(found(number, place), "place 0, length 41");
    }),
    case("3.25", "one record, 0 lent bytes: its identifier; 18", |row| {
        let manager = DialogManager::new();
        manager.insert(plain().dialog()).expect("taken");
        let ids = manager.all_ids();
        let tags: Vec<&str> = ids.iter().map(DialogId::local_tag).collect();
        row.rust(tags.join(","), "L");
        let bytes = encode(&plain().dialog());
        row.port(
            store::all_ids(Settings::RUST, &bytes, bytes.len(), &mut [], &mut 0),
            "18",
        );
    }),
    case("3.26", "a put: 1 in the metrics; the lent count 0 becomes 1", |row| {
        let manager = DialogManager::new();
        manager.insert(plain().dialog()).expect("taken");
        row.rust(manager.metrics.snapshot().created, "1");
        let (number, created) = port_put(&encode(&plain().dialog()));
        row.port(format!("{number}, {created}"), "0, 1");
    }),
    case("3.27", "`next_rseq` with n 0: can't be given; 1", |row| {
        let mut next = 0;
        let number = on_empty(20, |lent| rseq::next(ID, 0, lent, &mut next));
        row.port(format!("{number}: {next}"), "0: 1");
    }),
    case("3.28", "three empty texts, n 5: can't be given; 5", |row| {
        row.rust(empty_id(), "can't be given");
        let mut next = 0;
        let number = on_empty(20, |lent| rseq::next([&[], &[], &[]], 5, lent, &mut next));
        row.port(format!("{number}: {next}"), "0: 5");
    }),
    case(
        "3.29",
        "`is_pracked` with the used length 1 of no bytes: can't be given; 3",
        |row| row.port(prack::is_pracked(Settings::RUST, b"d", 1, &[], 1, &mut 0), "3"),
    ),
    case(
        "3.30",
        "`register` with a text of the byte 255: can't be given; accepted",
        |row| {
            row.rust(given(String::from_utf8(vec![255]).ok()), "can't be given");
            row.port(
                on_empty(50, |lent| prack::register(Settings::RUST, &[255], RINGING, 0, lent)),
                "0",
            );
        },
    ),
    case(
        "3.31",
        "method 0: can't be given; 28. The empty text in 31 lent bytes: accepted; 18",
        |row| {
            row.rust(given(Method::of_number(0)), "can't be given");
            let none = Response { method: 0, ..RINGING };
            row.port(
                on_empty(50, |lent| prack::register(Settings::RUST, b"", none, 0, lent)),
                "28",
            );
            let validator = PrackValidator::new();
            validator.register_reliable_provisional("", 1, 1, Method::Invite, 180);
            row.rust(format!("{:?}", validator.get_pending("")), "[(1, 180)]");
            row.port(
                on_empty(31, |lent| prack::register(Settings::RUST, b"", RINGING, 0, lent)),
                "18",
            );
            row.port(
                on_empty(32, |lent| prack::register(Settings::RUST, b"", RINGING, 0, lent)),
                "0",
            );
        },
    ),
    case(
        "3.32",
        "no RAck, the empty text in 10 lent bytes: an error and a time; 18",
        |row| {
            let (error, times) = without_rack();
            row.rust(format!("{error}, {times} time"), "PRACK missing RAck header, 1 time");
            let mut rack = NO_RACK;
            row.port(
                on_empty(10, |lent| prack::validate(Settings::RUST, b"", b"", 0, lent, &mut rack)),
                "18",
            );
        },
    ),
    case("3.33", "an empty block: `PRACK missing RAck header`; 19", |row| {
        row.rust(without_rack().0, "PRACK missing RAck header");
        let mut rack = NO_RACK;
        row.port(
            on_empty(50, |lent| prack::validate(Settings::RUST, b"", b"", 0, lent, &mut rack)),
            "19",
        );
    }),
    case("3.34", "one response, 5 lent bytes: a list of one; 18", |row| {
        const LATER: u64 = 300_000_000_000;
        let validator = PrackValidator::new();
        set_clock(0);
        validator.register_reliable_provisional("", 1, 1, Method::Invite, 180);
        set_clock(LATER);
        row.rust(format!("{:?}", validator.get_pending("")), "[(1, 180)]");
        let (mut bytes, mut used) = ([0; 50], 0);
        let mut lent = |time: Option<u64>| {
            let lent = Store {
                bytes: &mut bytes,
                used: &mut used,
            };
            let number = match time {
                None => prack::register(Settings::RUST, b"", RINGING, 0, lent),
                Some(time) => prack::get_pending(Settings::RUST, b"", time, lent, &mut [0; 5], &mut 0),
            };
            (number, bytes)
        };
        let (_, before) = lent(None);
        let (number, after) = lent(Some(LATER));
        row.port(number, "18");
        row.port(
            ["cleaned", "nothing cleaned"][usize::from(before == after)],
            "nothing cleaned",
        );
    }),
    case("3.35", "`get` of three empty texts: can't be given; 15", |row| {
        row.rust(empty_id(), "can't be given");
        let bytes = encode(&plain().dialog());
        let mut place = NOWHERE;
        let number = store::get(Settings::RUST, [&[], &[], &[]], &bytes, bytes.len(), &mut place);
        row.port(found(number, place), "15");
    }),
];
