//! Says which bounds a call meets.

use super::book::Book;
use super::call::{Action, Call, GET_PENDING, IS_PRACKED, REGISTER, REMOVE_DIALOG, REMOVE_PRACKED, VALIDATE};
use super::layout::{Entry, Response};
use super::steps::{Said, Step, LONG};
use crate::bounds;
use crate::rules::LONGEST;
use crate::settings;
use crate::store::given;
use crate::store::kind::Damage;

/// Whether a call can make the store larger.
pub fn can_grow(call: &Call) -> bool {
    call.time().is_some()
}

/// What the store is like, and what the call's text is.
pub fn store(book: &Book, call: &Call) {
    let entries = book.entries.len();
    bounds::number(call.name(), "entries", entries);
    if entries > 12 {
        bounds::met(call.name(), "entries", "over 12");
    }
    if book.entries.iter().any(|entry| entry.id.len() > LONGEST) {
        bounds::met(call.name(), "entries", "with a text over 8,192 bytes");
    }
    bounds::met(call.name(), "text", given::kind_of(&call.id));
    let side = match book.rust {
        Some(_) => "the Rust",
        None => "the run's own steps",
    };
    bounds::met(call.name(), "said by", side);
}

/// What a call meets at another site, by the operation's name there.
pub fn at_site(operation: &'static str, book: &Result<Book, Damage>, call: &Call) {
    let book = match book {
        Ok(book) => book,
        Err(damage) => {
            bounds::aloud(|| bounds::met(operation, "store", damage));
            return;
        }
    };
    let held = book.held(&call.id);
    let responses = held.map(Entry::responses).unwrap_or_default();
    let registered: Vec<u64> = responses.iter().map(|response| response.registered_at).collect();
    if let (Some(time), Some(entry)) = (call.time(), held) {
        settings::meet_time(operation, book.settings, time, entry.cleaned_at, &registered);
    }
    if matches!(call.action, Action::Register { .. } | Action::GetPending { .. }) {
        settings::pending_bound(operation, book.settings, responses.len());
    }
}

/// How what is written compares with the lent output.
pub fn output(operation: &'static str, result: usize, lent: usize) {
    bounds::number(operation, "lent output", lent);
    let side = match result as i64 - lent as i64 {
        -1 => "one byte less than lent",
        0 => "as large as lent",
        1 => "one byte more than lent",
        _ => return,
    };
    bounds::met(operation, "output", side);
}

/// What 18 of the store came before.
pub fn no_room(operation: &'static str, said: &Result<Said, u8>) {
    if operation == VALIDATE {
        bounds::number(VALIDATE, "18 before", said.as_ref().err().unwrap_or(&0));
    }
}

/// What a call that had room met.
pub fn step(book: &Book, call: &Call, held: Option<&Entry>, step: &Step) {
    if let Some(time) = call.time() {
        clock(call.name(), time, held);
    }
    let after = step.after.as_ref();
    match call.action {
        Action::Register { rseq, cseq, code, .. } => {
            bounds::number(REGISTER, "RSeq", rseq);
            bounds::number(REGISTER, "CSeq", cseq);
            bounds::number(REGISTER, "code", code);
            bounds::met(REGISTER, "list before", list_of(held));
            place(REGISTER, book, call, held);
        }
        Action::Validate { .. } => {
            let refusal = step.said.as_ref().err().copied();
            validated(call, held, after, refusal);
            place(VALIDATE, book, call, held);
        }
        Action::IsPracked { rseq } => bounds::met(IS_PRACKED, "response", first_of(held, rseq)),
        Action::GetPending { .. } => {
            bounds::met(GET_PENDING, "list before", list_of(held));
            place(GET_PENDING, book, call, held);
        }
        Action::RemoveDialog => place(REMOVE_DIALOG, book, call, held),
        Action::RemovePracked { rseq } => {
            let count = |entry: Option<&Entry>| entry.map_or(0, |entry| entry.responses().len());
            bounds::met(REMOVE_PRACKED, "response", first_of(held, rseq));
            bounds::number(REMOVE_PRACKED, "dropped", count(held) - count(after));
            if count(held) > 0 && count(after) == 0 {
                bounds::met(REMOVE_PRACKED, "dropped", "all");
            }
        }
    }
}

/// The time of a call beside those that are held.
fn clock(operation: &'static str, time: u64, held: Option<&Entry>) {
    bounds::number(operation, "time", time);
    let Some(entry) = held else {
        bounds::met(operation, "last cleanup", "none");
        return;
    };
    bounds::met(operation, "last cleanup", ago(time, entry.cleaned_at));
    if time.saturating_sub(entry.cleaned_at) >= LONG {
        for response in entry.responses() {
            let side = match response.acknowledged {
                true => "acknowledged",
                false => ago(time, response.registered_at),
            };
            bounds::met(operation, "response at a cleanup", side);
        }
    }
}

/// How long ago a time was.
fn ago(time: u64, since: u64) -> &'static str {
    match i128::from(time) - i128::from(since) - i128::from(LONG) {
        -1 => "300 s less 1 ns",
        0 => "300 s",
        1 => "300 s and 1 ns",
        over if over > 1 => "longer",
        _ if time < since => "it is later",
        _ if time == since => "now",
        _ => "shorter",
    }
}

/// How many responses the list has, or that there is none.
fn list_of(held: Option<&Entry>) -> &'static str {
    match held.map(|entry| entry.list.as_ref().map(Vec::len)) {
        None => "nothing held",
        Some(None) => "none",
        Some(Some(0)) => "empty",
        Some(Some(9)) => "9",
        Some(Some(10)) => "10",
        Some(Some(_)) => "others",
    }
}

/// The first response of an RSeq, and those behind it.
fn first_of(held: Option<&Entry>, rseq: u32) -> &'static str {
    let responses = held.map(Entry::responses).unwrap_or_default();
    let of_rseq: Vec<&Response> = responses.iter().filter(|response| response.rseq == rseq).collect();
    match (held.map(|entry| entry.list.is_some()), of_rseq.as_slice()) {
        (None, _) => "nothing held",
        (Some(false), _) => "no list",
        (_, []) => "no such RSeq",
        (_, [one]) if one.acknowledged => "acknowledged",
        (_, [_]) => "not acknowledged",
        (_, [first, ..]) if first.acknowledged => "the first of several acknowledged",
        (_, [_, rest @ ..]) if rest.iter().any(|one| one.acknowledged) => "another of several acknowledged",
        _ => "none of several acknowledged",
    }
}

/// What a PRACK met: which response decided, and what a refused one left.
fn validated(call: &Call, held: Option<&Entry>, after: Option<&Entry>, refusal: Option<u8>) {
    let Some(number) = refusal else {
        let marked = after.map(Entry::responses).unwrap_or_default();
        let several = |one: &Response| marked.iter().filter(|other| other.rseq == one.rseq).count() > 1;
        let accepted = marked.iter().find(|one| one.acknowledged && is_named(call, one));
        let response = accepted.expect("the marked one");
        bounds::number(VALIDATE, "accepted, RSeq", response.rseq);
        bounds::number(VALIDATE, "accepted, CSeq", response.cseq);
        bounds::number(VALIDATE, "accepted, method", response.method);
        let side = if several(response) {
            "the first of several"
        } else {
            "the only one"
        };
        bounds::met(VALIDATE, "accepted", side);
        return;
    };
    let left = match (held, after) {
        (None, _) => "a time stored",
        (held, after) if held == after => "nothing changed",
        (held, after) if held.map(Entry::size) > after.map(Entry::size) => "responses dropped",
        _ => "the time alone changed",
    };
    bounds::met(VALIDATE, refused(number), left);
}

/// Whether a block's RAck names a response, by its first number.
fn is_named(call: &Call, response: &Response) -> bool {
    let headers = crate::rules::headers(call.block()).expect("a block");
    let value = headers.get("RAck").expect("accepted");
    let rack = sip_dialog::prack_validator::RAck::parse(value);
    rack.is_ok_and(|rack| rack.rseq == response.rseq)
}

/// What the tables call the state that a refused PRACK leaves.
fn refused(number: u8) -> &'static str {
    match number {
        19 => "left with 19",
        20 => "left with 20",
        21 => "left with 21",
        22 => "left with 22",
        23 => "left with 23",
        _ => "left with 24",
    }
}

/// Where what is held for the text stands among the others, or where it was put or taken out.
fn place(operation: &'static str, book: &Book, call: &Call, held: Option<&Entry>) {
    let others = book.entries.iter().filter(|entry| entry.id != call.id);
    let (before, behind): (Vec<&Entry>, Vec<&Entry>) = others.partition(|entry| entry.id < call.id);
    let side = match (before.is_empty(), behind.is_empty()) {
        (true, true) => "the only one",
        (true, false) => "the first",
        (false, true) => "the last",
        (false, false) => "between others",
    };
    let what = if held.is_some() {
        "held, place"
    } else {
        "not held, place"
    };
    bounds::met(operation, what, side);
}
