//! Section 1, RFC 3262: readings, RSeq numbers, PRACK lists.

use super::calls::{block, number_in, rack, yes};
use super::held::Held;
use super::record::record;
use super::row::Said;
use super::{case, Case};
use crate::answer::Input;
use crate::dialogs::room;
use crate::prack::call::{Action, Call, Pracks};
use crate::rseq::call::{Call as RSeqCall, RSeqs};
use crate::rseq::layout::encode;
use crate::store::memory::Left;
use sip_dialog::DialogStateType::Early;

const SECOND: u64 = 1_000_000_000;

/// Whether a response with this line is a reliable provisional one.
fn reliable(status: u64, line: &str) -> Said {
    yes(
        "is_reliable_provisional",
        &Input::text(&block(&[line])).and_number(0, status),
    )
}

/// The next RSeq number of a dialog, which holds this one or none.
fn next_rseq(held: Option<u32>, n: u32) -> Said {
    let id = [b"c".to_vec(), b"l".to_vec(), b"r".to_vec()];
    let entries: Vec<_> = held.map(|number| (id.clone(), number)).into_iter().collect();
    let mut store: Held<RSeqs> = Held::of(&encode(&entries));
    store.said(&RSeqCall::Next { id, n }, |left| left.outs[0].to_string())
}

/// A call on the text of one byte.
fn of(action: Action) -> Call {
    let id = b"d".to_vec();
    Call { id, action }
}

/// Registers a 180 to an INVITE at time 0.
fn register(rseq: u32, cseq: u32) -> Call {
    of(Action::Register {
        rseq,
        cseq,
        method: 1,
        code: 180,
        time: 0,
    })
}

/// A PRACK with these lines.
fn prack(lines: &[&str], time: u64) -> Call {
    let block = block(lines);
    of(Action::Validate { block, time })
}

/// What waits at a time.
fn pending(time: u64) -> Call {
    of(Action::GetPending { time, room: 60 })
}

/// How many responses wait.
fn waiting(left: &mut Left) -> String {
    let bytes = &room::lent(&mut left.output)[..left.outs[0] as usize];
    format!("{} wait", bytes.len() / 6)
}

/// A PRACK store that holds nothing.
fn empty() -> Held<Pracks> {
    Held::of(&[])
}

/// Calls on an empty store; the answer of the last one, where the others are accepted.
fn last_of(calls: &[Call]) -> Said {
    let mut store = empty();
    let (last, before) = calls.split_last().expect("a call");
    for call in before {
        let [rust, port] = store.call(call).map(|left| left.number);
        assert_eq!([rust, port], [0, 0], "accepted");
    }
    store.check(last)
}

const ONE: &str = "RAck:1 1 INVITE";

pub const CASES: &[Case] = &[
    case("1.64", "101 with `RSeq:`: yes. 101 with `Require:100rel`: no", |row| {
        row.both(reliable(101, "RSeq:"), "yes");
        row.both(reliable(101, "Require:100rel"), "no");
    }),
    case("1.65", "`RSeq:0`: 0", |row| {
        row.both(number_in("rseq", &["RSeq:0"]), "0")
    }),
    case("1.66", "`RSeq:+1`: 1", |row| {
        row.both(number_in("rseq", &["RSeq:+1"]), "1")
    }),
    case("1.67", "value `1 1 ack`: method 2", |row| {
        row.both(rack("1 1 ack"), "RSeq 1, CSeq 1, method 2");
    }),
    case("1.68", "value `1 1 X`: 19", |row| row.both(rack("1 1 X"), "refused 19")),
    case("1.69", "values `+1 1 ACK` and `0 1 ACK`: read", |row| {
        row.both(rack("+1 1 ACK"), "RSeq 1, CSeq 1, method 2");
        row.both(rack("0 1 ACK"), "RSeq 0, CSeq 1, method 2");
    }),
    case(
        "1.70",
        "Early, reliable 183 with `RSeq:1`, then one with `RSeq:3` and `Contact:<sip:h>`: target `sip:h`",
        |row| {
            let mut record = record(|parts| parts.state = Early);
            row.both(record.response(183, &["RSeq:1"]), "taken");
            row.both(record.response(183, &["RSeq:3", "Contact:<sip:h>"]), "taken");
            row.both(record.target(), "`sip:h`");
        },
    ),
    case(
        "1.71",
        "2,147,483,647 held, then the first response to another request: 2,147,483,648",
        |row| row.both(next_rseq(Some(2_147_483_647), 5), "2147483648"),
    ),
    case("1.72", "n 0: 1. n 1: 1. n 2,147,483,648: 1", |row| {
        row.both(next_rseq(None, 0), "1");
        row.both(next_rseq(None, 1), "1");
        row.both(next_rseq(None, 1 << 31), "1");
    }),
    case("1.73", "4,294,967,295 held: 4,294,967,295", |row| {
        row.both(next_rseq(Some(u32::MAX), 5), "4294967295");
    }),
    case("1.74", "`register` RSeq 0, twice: two wait", |row| {
        let mut store = empty();
        row.both(store.check(&register(0, 1)), "accepted");
        row.both(store.check(&register(0, 1)), "accepted");
        row.both(store.said(&pending(0), waiting), "2 wait");
    }),
    case("1.75", "`register` RSeq 2, then 1: two wait", |row| {
        let mut store = empty();
        row.both(store.check(&register(2, 1)), "accepted");
        row.both(store.check(&register(1, 1)), "accepted");
        row.both(store.said(&pending(0), waiting), "2 wait");
    }),
    case(
        "1.76",
        "`register` at 0, `RAck:1 1 INVITE` at 300 s and 1 ns: 21",
        |row| {
            row.both(
                last_of(&[register(1, 1), prack(&[ONE], 300 * SECOND + 1)]),
                "refused 21",
            )
        },
    ),
    case(
        "1.77",
        "`register` at 0, `get_pending` at 300 s, `RAck:1 1 INVITE` at 600 s less 1 ns: accepted",
        |row| {
            let calls = [register(1, 1), pending(300 * SECOND), prack(&[ONE], 600 * SECOND - 1)];
            row.both(last_of(&calls), "accepted");
        },
    ),
    case("1.78", "`register` RSeq 1 to 11, `RAck:1 1 INVITE`: 21", |row| {
        let mut calls: Vec<Call> = (1..=11).map(|rseq| register(rseq, 1)).collect();
        calls.push(prack(&[ONE], 0));
        row.both(last_of(&calls), "refused 21");
    }),
    case(
        "1.79",
        "`register` RSeq 1 with CSeq 1, RSeq 1 with CSeq 2, `RAck:1 2 INVITE`: 22",
        |row| {
            let calls = [register(1, 1), register(1, 2), prack(&["RAck:1 2 INVITE"], 0)];
            row.both(last_of(&calls), "refused 22");
        },
    ),
    case(
        "1.80",
        "`register` with method 2 and code 0, `RAck:1 1 ACK`: accepted",
        |row| {
            let ack = of(Action::Register {
                rseq: 1,
                cseq: 1,
                method: 2,
                code: 0,
                time: 0,
            });
            row.both(last_of(&[ack, prack(&["RAck:1 1 ACK"], 0)]), "accepted");
        },
    ),
    case(
        "1.81",
        "`register`, a block of the line `RAck:1 1 INVITE`: accepted",
        |row| row.both(last_of(&[register(1, 1), prack(&[ONE], 0)]), "accepted"),
    ),
    case("1.82", "`register`, `RAck:1 1 INVITE` and `RAck:x`: accepted", |row| {
        row.both(last_of(&[register(1, 1), prack(&[ONE, "RAck:x"], 0)]), "accepted");
    }),
    case(
        "1.83",
        "a PRACK without RAck, then `RAck:1 1 INVITE`: 19, with 12 bytes used for a text of one byte; 20",
        |row| {
            let mut store = empty();
            let [rust, port] = store.call(&prack(&[], 0));
            let words = |left: Left| format!("refused {}, {} used", left.number, left.store.used);
            row.rust(words(rust), "refused 19, 12 used");
            row.port(words(port), "refused 19, 12 used");
            row.both(store.check(&prack(&[ONE], 0)), "refused 20");
        },
    ),
    case(
        "1.84",
        "`register` RSeq 1 with CSeq 1, `RAck:1 1 INVITE`, `register` RSeq 1 with CSeq 2, `RAck:1 2 INVITE`: 22",
        |row| {
            let later = prack(&["RAck:1 2 INVITE"], 0);
            let calls = [register(1, 1), prack(&[ONE], 0), register(1, 2), later];
            row.both(last_of(&calls), "refused 22");
        },
    ),
];
