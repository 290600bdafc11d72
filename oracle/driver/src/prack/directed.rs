//! Lists for what random calls seldom meet: times at their bounds, the eleventh response, equal RSeqs, emptied lists, texts of
//! which nothing is held, the forms of RAck, the order of texts, and lists that no call of the Rust makes.

use super::call::{Action, Call, Pracks};
use super::layout::{encode, Entry, Response, MOST};
use super::lists::all;
use super::steps::LONG;
use crate::random::Random;
use crate::rseq::TEXTS;
use crate::rules::LONGEST;
use crate::settings;
use crate::store::kind::Damage;
use crate::store::lists::List;
use crate::store::run::{Run, Sides};
use crate::texts::{each_choice, METHOD_TEXTS};
use port::Settings;

/// How often each list is gone through.
const TIMES: usize = 25;

/// All of them.
pub fn each(run: &mut Run<Pracks>, random: &mut Random) {
    for _ in 0..TIMES {
        each_time(run, random);
        each_count(run, random);
        each_roomy(run, random, &equal_rseqs());
        each_roomy(run, random, &emptied());
        each_roomy(run, random, &numbers());
        for calls in departures() {
            each_roomy(run, random, &calls);
        }
        each_unknown(run, random);
        each_rack(run, random);
        each_flag(run, random);
        each_history(run, random);
        each_long_text(run, random);
    }
    each_pair(run, random);
}

/// A list from an empty store whose calls are lent more than enough.
fn each_roomy(run: &mut Run<Pracks>, random: &mut Random, calls: &[Call]) {
    List::new(run, random, &[], [0, 0]).each_roomy(calls);
}

/// The text of these lists.
const ID: &[u8] = b"d";

/// A call on it.
fn of(action: Action) -> Call {
    Call {
        id: ID.to_vec(),
        action,
    }
}

/// Registers a 180 to an INVITE.
fn register(rseq: u32, cseq: u32, time: u64) -> Call {
    of(Action::Register {
        rseq,
        cseq,
        method: 1,
        code: 180,
        time,
    })
}

/// A PRACK whose block has this RAck alone.
fn prack(value: &str, time: u64) -> Call {
    validate(format!("RAck:{value}\r\n").as_bytes(), time)
}

/// A PRACK with this block.
fn validate(block: &[u8], time: u64) -> Call {
    of(Action::Validate {
        block: block.to_vec(),
        time,
    })
}

/// Room for all that may wait: at the Rust's figures 60 bytes.
const ROOM: usize = 60;

/// What waits, with room for all.
fn pending(time: u64) -> Call {
    of(Action::GetPending { time, room: ROOM })
}

/// Times after a last cleanup, around the site's cleanup and timeout and beyond them.
fn gaps(site: Settings) -> Vec<u64> {
    let [cleanup, timeout] = settings::times(site);
    let mut gaps = vec![0, cleanup - 1, cleanup, cleanup + 1];
    if cleanup != timeout {
        gaps.extend([timeout - 1, timeout, timeout + 1]);
    }
    gaps.extend([cleanup + timeout, cleanup + timeout + 1]);
    gaps
}

/// Responses of two times, one acknowledged and one from before the last cleanup; then each call that cleans, so long after
/// them; then one that goes back.
pub fn each_time(run: &mut Run<Pracks>, random: &mut Random) {
    let [cleanup, timeout] = settings::times(run.site);
    let starts = [1, LONG, u64::MAX - 2 * (cleanup + timeout)];
    let gaps = gaps(run.site);
    each_choice(&[starts.len(), gaps.len(), CLEANING], &mut |choice| {
        let start = starts[choice[0]];
        let then = start + gaps[choice[1]];
        let mut calls = vec![
            register(1, 1, start),
            register(2, 1, start + 1),
            register(3, 1, start - 1),
            register(4, 1, start),
            prack("4 1 INVITE", start),
        ];
        calls.push(cleaning(choice[2], then));
        calls.extend([of(Action::IsPracked { rseq: 1 }), of(Action::IsPracked { rseq: 4 })]);
        calls.push(cleaning(choice[2], start - 1));
        calls.push(pending(then));
        calls.push(cleaning(choice[2], then + cleanup));
        calls.push(pending(then + cleanup + 1));
        each_roomy(run, random, &calls);
    });
    let ends = [
        pending(u64::MAX),
        register(1, 1, 0),
        prack("1 1 INVITE", u64::MAX),
        pending(0),
    ];
    each_roomy(run, random, &ends);
    let ends = [
        pending(0),
        register(1, 1, 0),
        register(2, 1, u64::MAX),
        prack("2 1 INVITE", 0),
    ];
    each_roomy(run, random, &ends);
}

/// Responses that are as old as the site's timeout when a cleanup is due, a nanosecond younger and older; then each call that cleans.
pub fn each_age(run: &mut Run<Pracks>, random: &mut Random) {
    let [cleanup, timeout] = settings::times(run.site);
    let start = cleanup + timeout;
    let due = start + cleanup;
    for choice in 0..CLEANING {
        let calls = [
            pending(start),
            register(1, 1, due - timeout - 1),
            register(2, 1, due - timeout),
            register(4, 1, due - timeout + 1),
            cleaning(choice, due - 1),
            cleaning(choice, due),
            pending(due),
        ];
        each_roomy(run, random, &calls);
    }
}

/// So many responses are registered; what waits is asked for with room for all and with too little.
pub fn up_to(many: u32) -> Vec<Call> {
    let mut calls: Vec<Call> = (1..=many).map(|rseq| register(rseq, 7, LONG)).collect();
    calls.extend([60, 6 * many as usize].map(|room| of(Action::GetPending { time: LONG, room })));
    calls
}

/// Every call on a store that has a longer list than the site allows.
pub fn over(run: &mut Run<Pracks>, random: &mut Random, store: &[u8]) {
    for (id, damage) in [(ID, OWN), (b"e", OTHER)] {
        for call in all(id, LONG) {
            let mut sides = Sides::damaged(random, run.site, store, [0, 0], damage);
            run.compare(&mut sides, &call, store.len());
        }
    }
}

/// What the tables say of a store with a list longer than the site allows: that of the call's text, or another's.
pub const OWN: Damage = "its own list too long";
pub const OTHER: Damage = "another's list too long";

/// The calls that clean: a register, a PRACK refused with each number, an accepted one, and what waits.
const CLEANING: usize = 9;

/// One of them, at a time.
fn cleaning(choice: usize, time: u64) -> Call {
    match choice {
        0 => register(5, 1, time),
        1 => validate(b"", time),
        2 => prack("1 1", time),
        3 => prack("9 1 INVITE", time),
        4 => prack("2 2 INVITE", time),
        5 => prack("2 1 ACK", time),
        6 => prack("4 1 INVITE", time),
        7 => prack("2 1 INVITE", time),
        _ => pending(time),
    }
}

/// Responses up to two more than may be pending, of which some are acknowledged; the oldest goes with the first of these.
pub fn each_count(run: &mut Run<Pracks>, random: &mut Random) {
    let last = run.site.pending + 2;
    for acknowledged in 0..4 {
        let mut calls = Vec::new();
        for rseq in 1..=last {
            calls.extend([register(rseq, 7, LONG), pending(LONG)]);
            if rseq <= acknowledged {
                calls.push(prack(&format!("{rseq} 7 INVITE"), LONG));
            }
        }
        calls.extend([
            prack("1 7 INVITE", LONG),
            prack("2 7 INVITE", LONG),
            prack("3 7 INVITE", LONG),
            prack(&format!("{last} 7 INVITE"), LONG),
            of(Action::IsPracked { rseq: 3 }),
            pending(LONG),
            of(Action::RemovePracked { rseq: last }),
            register(last + 1, 7, LONG),
            pending(2 * LONG),
        ]);
        each_roomy(run, random, &calls);
        let same: Vec<Call> = (0..last).map(|cseq| register(1, cseq, LONG)).collect();
        each_roomy(run, random, &same);
    }
}

/// Two responses of one RSeq, with other CSeqs: the first decides until it is removed.
fn equal_rseqs() -> Vec<Call> {
    let is_pracked = || of(Action::IsPracked { rseq: 1 });
    let remove = || of(Action::RemovePracked { rseq: 1 });
    let mut calls = vec![register(1, 1, 5), register(2, 1, 5), register(1, 2, 5)];
    for _ in 0..3 {
        calls.extend([
            is_pracked(),
            remove(),
            prack("1 2 INVITE", 6),
            prack("1 1 ACK", 6),
            prack("1 1 INVITE", 6),
            prack("1 1 INVITE", 6),
            prack("1 2 INVITE", 6),
            is_pracked(),
            pending(6),
            remove(),
            pending(6),
        ]);
    }
    calls
}

/// No list against one that became empty, by a removal and by a cleanup.
fn emptied() -> Vec<Call> {
    let one = "1 1 INVITE";
    vec![
        prack(one, 5),
        of(Action::IsPracked { rseq: 1 }),
        of(Action::RemovePracked { rseq: 1 }),
        prack(one, 5),
        register(1, 1, 6),
        prack(one, 7),
        prack(one, 8),
        of(Action::RemovePracked { rseq: 1 }),
        prack(one, 9),
        of(Action::IsPracked { rseq: 1 }),
        of(Action::RemovePracked { rseq: 1 }),
        pending(9),
        prack(one, LONG + 5),
        register(1, 1, LONG + 6),
        prack(one, 2 * LONG + 7),
        prack(one, 2 * LONG + 8),
        of(Action::RemoveDialog),
        prack(one, 2 * LONG + 9),
        of(Action::RemoveDialog),
        of(Action::RemoveDialog),
        pending(3),
        prack(one, 3),
    ]
}

/// Every method with RSeq, CSeq and code at their bounds.
fn numbers() -> Vec<Call> {
    let mut calls = Vec::new();
    for method in 1..=14 {
        let name = METHOD_TEXTS[usize::from(method) - 1];
        for number in [0, 1, u32::MAX] {
            let code = number as u16;
            calls.push(of(Action::Register {
                rseq: number,
                cseq: number,
                method,
                code,
                time: LONG,
            }));
            calls.push(prack(&format!("{number} {number} {name}"), LONG));
            calls.push(pending(LONG));
            calls.push(of(Action::RemovePracked { rseq: number }));
        }
    }
    calls
}

/// The inputs of docs/DIFFERENCES.md, "RFC 3262, PRACK lists", row by row.
fn departures() -> Vec<Vec<Call>> {
    let odd = of(Action::Register {
        rseq: 1,
        cseq: 1,
        method: 2,
        code: 0,
        time: 0,
    });
    let eleven = (1..=11).map(|rseq| register(rseq, 1, 0));
    let one = "1 1 INVITE";
    vec![
        vec![register(0, 1, 0), register(0, 1, 0), pending(0)],
        vec![register(2, 1, 0), register(1, 1, 0), pending(0)],
        vec![register(1, 1, 0), prack(one, LONG + 1)],
        vec![register(1, 1, 0), pending(LONG), prack(one, 2 * LONG - 1)],
        eleven.chain([prack(one, 0)]).collect(),
        vec![register(1, 1, 0), register(1, 2, 0), prack("1 2 INVITE", 0)],
        vec![odd, prack("1 1 ACK", 0)],
        vec![register(1, 1, 0), prack(one, 0)],
        vec![register(1, 1, 0), validate(b"RAck:1 1 INVITE\r\nRAck:x\r\n", 0)],
        vec![validate(b"", 0), prack(one, 0)],
    ]
}

/// Calls on a text of which nothing is held, with room for its time, a byte less, and none: 18 comes before 19 and 20.
fn each_unknown(run: &mut Run<Pracks>, random: &mut Random) {
    let blocks: [&[u8]; 3] = [b"", b"RAck:x\r\n", b"RAck:1 1 INVITE\r\n"];
    let actions = blocks.map(|block| validate(block, 5).action);
    let actions = actions.into_iter().chain([pending(5).action, register(1, 1, 5).action]);
    for action in actions {
        for id in [b"".as_slice(), b"d", b"zz"] {
            let call = Call {
                id: id.to_vec(),
                action: action.clone(),
            };
            let other = [register(7, 7, 7)];
            let mut list = List::new(run, random, &[], [0, 0]);
            if id != ID {
                list.each_roomy(&other);
            }
            let used = list.sides.book().used();
            let needed = list.sides.book().used_after(&call);
            for lent in [used, needed - 1, needed, needed + 1] {
                list.compare(&call, lent);
            }
        }
    }
}

/// RAcks in every form beside a response of RSeq 1, CSeq 1 and INVITE.
const RACKS: [&str; 34] = [
    "1 1 INVITE",
    "+1 +1 INVITE",
    "01 0001 INVITE",
    "+01 1 INVITE",
    "1 1 invite",
    "1 1 Invite",
    "\t1\t 1\tINVITE\t",
    "  1  1  INVITE  ",
    "1 1 INVITE 1",
    "1 1 INVITE x",
    "1 1",
    "1",
    "",
    " ",
    "1 1 ",
    "INVITE 1 1",
    "-1 1 INVITE",
    "1 -1 INVITE",
    "++1 1 INVITE",
    "+ 1 INVITE",
    "1,1 INVITE",
    "x 1 INVITE",
    "1 x INVITE",
    "1 1 x",
    "1 1 INVIT",
    "1 1 INVITED",
    "4294967295 1 INVITE",
    "4294967296 1 INVITE",
    "1 4294967295 INVITE",
    "1 4294967296 INVITE",
    "0 1 INVITE",
    "1 0 INVITE",
    "1 1 PRACK",
    "1 2 PRACK",
];

/// Each of them; other names, two lines, and other letter case of the name; each twice.
fn each_rack(run: &mut Run<Pracks>, random: &mut Random) {
    let mut blocks: Vec<String> = RACKS.iter().map(|value| format!("RAck:{value}\r\n")).collect();
    blocks.extend(
        RACKS
            .iter()
            .map(|value| format!("Via:h\r\nrACK: {value} \r\nRAck:1 1 INVITE\r\n")),
    );
    blocks.extend(["RAcks:1 1 INVITE\r\n", "XRAck:1 1 INVITE\r\n", "RSeq:1\r\n", ""].map(String::from));
    for block in blocks {
        let twice = [
            register(1, 1, 5),
            validate(block.as_bytes(), 5),
            validate(block.as_bytes(), 6),
        ];
        each_roomy(run, random, &twice);
    }
}

/// Lists of three responses of one RSeq or two, with any of them acknowledged, as only a store handed in may have them.
fn each_flag(run: &mut Run<Pracks>, random: &mut Random) {
    each_choice(&[2, 2, 2, 2, 3], &mut |choice| {
        let response = |at: usize, rseq| Response {
            rseq,
            cseq: 1,
            method: 1,
            code: 181,
            acknowledged: choice[at] == 1,
            registered_at: [LONG, LONG + 1, 2 * LONG][at],
        };
        let last = 1 + choice[3] as u32;
        let store = encode(&[Entry {
            id: ID.to_vec(),
            cleaned_at: LONG,
            list: Some(vec![response(0, 1), response(1, 1), response(2, last)]),
        }]);
        let time = [LONG, 2 * LONG, 2 * LONG + 1][choice[4]];
        for call in all(ID, time) {
            List::new(run, random, &store, [0, 0]).each_roomy(&[call, prack("1 1 INVITE", time)]);
        }
    });
}

/// So many texts are held.
const MANY: usize = 30;

/// Two histories of one content: the texts in any order, others held and removed in between. After each call the store is held
/// against the one image of its content, as everywhere.
fn each_history(run: &mut Run<Pracks>, random: &mut Random) {
    let ids: Vec<Vec<u8>> = (0..MANY)
        .map(|at| [random.pick(&TEXTS), &[b'!', at as u8]].concat())
        .collect();
    for _ in 0..2 {
        let mut rest: Vec<usize> = (0..ids.len()).collect();
        let mut calls = Vec::new();
        while !rest.is_empty() {
            let at = rest.swap_remove(random.below(rest.len()));
            calls.extend(history(random, &ids[at], at as u64));
        }
        each_roomy(run, random, &calls);
    }
}

/// Calls after which a text has an empty list, cleaned at a time; at times by more of them.
fn history(random: &mut Random, id: &[u8], time: u64) -> Vec<Call> {
    let [register, prack, _, pending, forget, remove] = all(id, time);
    let mut calls = Vec::new();
    if random.one_in(3) {
        calls.extend([pending, forget]);
    }
    let more = if random.one_in(3) { MOST } else { 1 };
    for _ in 0..more {
        calls.extend([register.clone(), prack.clone(), remove.clone()]);
    }
    calls
}

/// Stores handed in that hold a text over 8,192 bytes: they are read, and the other entries are changed.
fn each_long_text(run: &mut Run<Pracks>, random: &mut Random) {
    let length = random.pick(&[LONGEST + 1, usize::from(u16::MAX)]);
    let entry = |id: &[u8]| Entry {
        id: id.to_vec(),
        cleaned_at: LONG,
        list: Some(Vec::new()),
    };
    let store = [entry(b"a"), entry(&vec![b'b'; length]), entry(b"c")];
    let mut calls = Vec::new();
    for id in [
        b"a".to_vec(),
        b"c".to_vec(),
        vec![b'b'; LONGEST],
        vec![b'b'; LONGEST + 1],
    ] {
        calls.extend(all(&id, LONG));
    }
    List::new(run, random, &encode(&store), [0, 0]).each_roomy(&calls);
}

/// Each two texts in both orders: those that begin with each other, and those of any byte.
fn each_pair(run: &mut Run<Pracks>, random: &mut Random) {
    let bytes = (0..=255).map(|byte| vec![byte]);
    let texts: Vec<Vec<u8>> = TEXTS.iter().map(|text| text.to_vec()).chain(bytes).collect();
    let count = TEXTS.len();
    for (at, first) in texts.iter().enumerate() {
        let others = if at < count { 0..count } else { at - 1..at + 1 };
        for second in &texts[others] {
            let [one, other] = [first, second].map(|id| all(id, LONG));
            let mut calls = vec![one[0].clone(), other[0].clone()];
            calls.extend(one[1..4].iter().cloned());
            calls.extend(other[1..4].iter().cloned());
            calls.extend([other[5].clone(), one[4].clone(), other[3].clone(), other[4].clone()]);
            each_roomy(run, random, &calls);
            each_roomy(run, random, &[other[0].clone(), one[0].clone(), one[3].clone()]);
        }
    }
}
