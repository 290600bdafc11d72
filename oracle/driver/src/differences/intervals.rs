//! Section 1, RFC 4028: intervals and who refreshes.

use super::calls::{check, said, yes};
use super::record::{made, record};
use super::row::Said;
use super::{case, Case};
use crate::answer::Input;
use sip_core::RefresherRole::{Uac, Uas};
use sip_dialog::DialogStateType::Confirmed;

const SECOND: u64 = 1_000_000_000;

/// The interval of an offer: requested, the local minimum, the peer's minimum and the preference, if given.
fn negotiated(requested: u64, local: u64, remote: Option<u64>, preference: Option<u64>) -> Said {
    let given = |number: Option<u64>| [u64::from(number.is_some()), number.unwrap_or_default()];
    let [[has_remote, remote], [has_preference, preference]] = [given(remote), given(preference)];
    let input = Input {
        numbers: [requested, local, has_remote, remote, has_preference, preference],
        ..Input::default()
    };
    said("negotiate_session_expires", &input, |answer| answer.outs[0].to_string())
}

/// Whether an interval of so many seconds is to be refreshed.
fn due(seconds: u64, elapsed: u64) -> Said {
    yes(
        "needs_refresh",
        &Input::number(1).and_number(1, seconds).and_number(2, elapsed),
    )
}

/// Whether we, who are uas, refresh.
fn role(text: Option<&str>) -> Said {
    let input = Input::text(text.unwrap_or_default().as_bytes());
    yes(
        "determine_refresher_role",
        &input.and_number(0, u64::from(text.is_some())),
    )
}

pub const CASES: &[Case] = &[
    case("1.85", "interval 0, minimum 0: accepted", |row| {
        row.both(
            check("validate_session_expires", &Input::number(0).and_number(1, 1)),
            "accepted",
        );
    }),
    case(
        "1.86",
        "requested 0, local minimum 0: 0. Requested 90 s, local minimum 0, preference 0: 0",
        |row| {
            row.both(negotiated(0, 0, None, None), "0");
            row.both(negotiated(90 * SECOND, 0, None, Some(0)), "0");
        },
    ),
    case(
        "1.87",
        "requested 100 s, local minimum 90 s, the peer's 120 s, preference 60 s: 13 with 120 s",
        |row| {
            let [requested, local, remote, preference] = [100, 90, 120, 60].map(|seconds| seconds * SECOND);
            let said = negotiated(requested, local, Some(remote), Some(preference));
            row.both(said, "refused 13 with 120000000000");
        },
    ),
    case("1.88", "1 s, elapsed 0.5 s: no; yes from 666,666,666 ns on", |row| {
        row.both(due(1, SECOND / 2), "no");
        row.both(due(1, 666_666_665), "no");
        row.both(due(1, 666_666_666), "yes");
    }),
    case(
        "1.89",
        "we are uac, 90 s with refresher uas, elapsed 60 s: yes",
        |row| {
            let record = record(|parts| {
                parts.is_uac = true;
                parts.seconds = Some(90);
                parts.refresher = Some(Uas);
            });
            row.both(record.needs_refresh(60 * SECOND), "yes");
        },
    ),
    case("1.90", "`Uas`, we are uas: no", |row| row.both(role(Some("Uas")), "no")),
    case("1.91", "no text, we are uas: no", |row| row.both(role(None), "no")),
    case("1.92", "`set_session_expires` 86,401: 14", |row| {
        row.both(record(|_| {}).set_session_expires(86_401), "refused 14");
    }),
    case("1.93", "`new_uac` with `Session-Expires:89`: 13 with 90", |row| {
        let record = made("new_uac", |given| given.response.push("Session-Expires:89"));
        row.both(record.creation(), "refused 13 with 90");
    }),
    case(
        "1.94",
        "`new_uac` with `Session-Expires:x`: accepted, no interval",
        |row| {
            let record = made("new_uac", |given| given.response.push("Session-Expires:x"));
            row.both(record.creation(), "accepted");
            row.both(record.interval(), "no interval, none");
        },
    ),
    case("1.95", "Confirmed, 180 with `Session-Expires:7`: 7 s", |row| {
        let mut record = record(|parts| parts.state = Confirmed);
        row.both(record.response(180, &["Session-Expires:7"]), "taken");
        row.both(record.interval(), "7 s, none");
    }),
    case("1.96", "Confirmed with 90 s, 200 without it: 90 s", |row| {
        let mut record = record(|parts| parts.seconds = Some(90));
        row.both(record.response(200, &[]), "taken");
        row.both(record.interval(), "90 s, none");
    }),
    case(
        "1.97",
        "Confirmed with refresher uac, 200 with `Session-Expires:7`: none",
        |row| {
            let mut record = record(|parts| parts.refresher = Some(Uac));
            row.both(record.interval(), "no interval, uac");
            row.both(record.response(200, &["Session-Expires:7"]), "taken");
            row.both(record.interval(), "7 s, none");
        },
    ),
    case(
        "1.98",
        "`new_uas`, then 200 to our own UPDATE with `Session-Expires:90;refresher=uac`: refresher uac, side uas",
        |row| {
            let mut record = made("new_uas", |_| {});
            let lines = ["CSeq:1 UPDATE", "Session-Expires:90;refresher=uac"];
            row.both(record.response(200, &lines), "taken");
            row.both(record.interval(), "90 s, uac");
            row.both(record.side(), "uas");
        },
    ),
];
