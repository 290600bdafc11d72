//! What a call does with what is held for its text, by the run's own reading of document 01. It stands in for the Rust where
//! that can't hold a list, it says how large a result is before the Rust is asked, and with one thing wrong it is a planted
//! fault. Wherever the Rust is asked, these steps must do the same.

use super::call::{Action, Call};
use super::layout::{Entry, Response};
use crate::settings;
use port::Settings;
use sip_core::Headers;
use sip_dialog::prack_validator::RAck;

/// At the Rust's figures a cleanup is due after so long, and a response is too old after it; in nanoseconds.
pub const LONG: u64 = 300_000_000_000;

/// What an accepted call answers.
#[derive(Debug, Clone, PartialEq, Eq)]
pub enum Said {
    Nothing,
    Rack { rseq: u32, cseq: u32, method: u8 },
    Pracked(bool),
    Pending(Vec<u8>),
}

/// What is held for the text afterwards, and the answer.
#[derive(Debug, Clone, PartialEq, Eq)]
pub struct Step {
    pub after: Option<Entry>,
    pub said: Result<Said, u8>,
}

/// One thing that is wrong in a planted fault.
#[derive(Debug, Clone, Copy, PartialEq, Eq)]
pub enum Wrong {
    Nothing,
    NeverCleans,
    CleansLate,
    DropsAt300,
    KeepsAcknowledged,
    StoresTimeGoneBack,
    DropsNewest,
    TakesEleven,
    Replaces,
    KeepsStoreOnRefusal,
    ForgetsUnknown,
    EmptiedIsNone,
    LastDecides,
    MarksLast,
    MarksNone,
    ComparesNoMethod,
    MethodFirst,
    TakesRepeat,
    ListsAcknowledged,
    KeepsTime,
    DropsOpen,
    DropsEmptied,
    DropsOne,
    StoresOtherRseq,
    StoresOtherCseq,
    StoresOtherCode,
    AcknowledgesUnknown,
}

/// The step of a call at a site of these settings, whose block has these headers, on what is held for its text.
pub fn step(wrong: Wrong, settings: Settings, call: &Call, headers: &Headers, held: Option<&Entry>) -> Step {
    let cleaned = |time| cleaned(wrong, settings::times(settings), time, &call.id, held);
    match &call.action {
        Action::Register { time, .. } => {
            let pending = settings.pending as usize;
            registered(wrong, pending, cleaned(*time), response(call))
        }
        Action::Validate { time, .. } => validated(wrong, cleaned(*time), headers, held),
        Action::IsPracked { rseq } => {
            let responses = held.map(Entry::responses).unwrap_or_default();
            let unknown = wrong == Wrong::AcknowledgesUnknown && held.is_some();
            let acknowledged = decider(wrong, responses, *rseq).map_or(unknown, |at| responses[at].acknowledged);
            said(held.cloned(), Said::Pracked(acknowledged))
        }
        Action::GetPending { time, .. } => {
            let entry = cleaned(*time);
            let pending = Said::Pending(pending(wrong, entry.responses()));
            let forgotten = held.is_none() && wrong == Wrong::ForgetsUnknown;
            said((!forgotten).then_some(entry), pending)
        }
        Action::RemoveDialog => {
            let time_alone = |entry: &Entry| Entry {
                list: None,
                ..entry.clone()
            };
            said(
                held.filter(|_| wrong == Wrong::KeepsTime).map(time_alone),
                Said::Nothing,
            )
        }
        Action::RemovePracked { rseq } => said(held.map(|entry| pruned(wrong, entry, *rseq)), Said::Nothing),
    }
}

/// An accepted step.
fn said(after: Option<Entry>, said: Said) -> Step {
    Step { after, said: Ok(said) }
}

/// The response of a register, not acknowledged.
fn response(call: &Call) -> Response {
    match call.action {
        Action::Register {
            rseq,
            cseq,
            method,
            code,
            time,
        } => Response {
            rseq,
            cseq,
            method,
            code,
            acknowledged: false,
            registered_at: time,
        },
        _ => panic!("a register"),
    }
}

/// What is held after the cleanup of a call at a time, by the site's cleanup and timeout.
fn cleaned(wrong: Wrong, [cleanup, timeout]: [u64; 2], time: u64, id: &[u8], held: Option<&Entry>) -> Entry {
    let Some(held) = held else {
        return Entry {
            id: id.to_vec(),
            cleaned_at: time,
            list: None,
        };
    };
    let mut entry = held.clone();
    if !is_due(wrong, cleanup, time, held) {
        if wrong == Wrong::StoresTimeGoneBack {
            entry.cleaned_at = entry.cleaned_at.min(time);
        }
        return entry;
    }
    entry.cleaned_at = time;
    if let Some(list) = &mut entry.list {
        list.retain(|response| stays(wrong, timeout, time, response));
    }
    entry
}

/// Whether a cleanup is due.
fn is_due(wrong: Wrong, cleanup: u64, time: u64, held: &Entry) -> bool {
    let elapsed = time.saturating_sub(held.cleaned_at);
    match wrong {
        Wrong::NeverCleans => false,
        Wrong::CleansLate => elapsed > cleanup,
        _ => elapsed >= cleanup,
    }
}

/// Whether a cleanup leaves a response.
fn stays(wrong: Wrong, timeout: u64, time: u64, response: &Response) -> bool {
    let elapsed = time.saturating_sub(response.registered_at);
    let young = match wrong {
        Wrong::DropsAt300 => elapsed < timeout,
        _ => elapsed <= timeout,
    };
    young && (!response.acknowledged || wrong == Wrong::KeepsAcknowledged)
}

/// A response is put behind the others; of as many as may be pending the first goes.
fn registered(wrong: Wrong, pending: usize, mut entry: Entry, mut response: Response) -> Step {
    match wrong {
        Wrong::StoresOtherRseq => response.rseq ^= 1,
        Wrong::StoresOtherCseq => response.cseq ^= 1,
        Wrong::StoresOtherCode => response.code ^= 1,
        _ => {}
    }
    let list = entry.list.get_or_insert_default();
    if wrong == Wrong::Replaces {
        list.retain(|other| other.rseq != response.rseq);
    }
    if list.len() >= pending && wrong != Wrong::TakesEleven {
        match wrong {
            Wrong::DropsNewest => list.pop().expect("ten"),
            _ => list.remove(0),
        };
    }
    list.push(response);
    said(Some(entry), Said::Nothing)
}

/// A PRACK is held against the cleaned list.
fn validated(wrong: Wrong, mut entry: Entry, headers: &Headers, held: Option<&Entry>) -> Step {
    let judged = judged(wrong, headers, entry.list.as_deref());
    let kept = match (&judged, wrong) {
        (Err(_), Wrong::KeepsStoreOnRefusal) => true,
        (_, Wrong::ForgetsUnknown) => held.is_none(),
        _ => false,
    };
    if let (Ok((_, at)), Some(list)) = (&judged, &mut entry.list) {
        let last = list.len() - 1;
        let at = if wrong == Wrong::MarksLast { last } else { *at };
        list[at].acknowledged |= wrong != Wrong::MarksNone;
    }
    Step {
        after: if kept { held.cloned() } else { Some(entry) },
        said: judged.map(|(rack, _)| rack),
    }
}

/// The RAck and the place of the response that it acknowledges: 19 to 24.
fn judged(wrong: Wrong, headers: &Headers, list: Option<&[Response]>) -> Result<(Said, usize), u8> {
    let rack = headers
        .get("RAck")
        .and_then(|value| RAck::parse(value).ok())
        .ok_or(19)?;
    let method = rack.method.number().ok_or(19)?;
    let list = list
        .filter(|list| !list.is_empty() || wrong != Wrong::EmptiedIsNone)
        .ok_or(20)?;
    let at = decider(wrong, list, rack.rseq).ok_or(21)?;
    let other_cseq = (list[at].cseq != rack.cseq, 22);
    let other_method = (list[at].method != method && wrong != Wrong::ComparesNoMethod, 23);
    let repeat = (list[at].acknowledged && wrong != Wrong::TakesRepeat, 24);
    let tests = match wrong {
        Wrong::MethodFirst => [other_method, other_cseq, repeat],
        _ => [other_cseq, other_method, repeat],
    };
    if let Some((_, number)) = tests.into_iter().find(|(holds, _)| *holds) {
        return Err(number);
    }
    let said = Said::Rack {
        rseq: rack.rseq,
        cseq: rack.cseq,
        method,
    };
    Ok((said, at))
}

/// The place of the response of an RSeq that decides: the first.
fn decider(wrong: Wrong, list: &[Response], rseq: u32) -> Option<usize> {
    let is_of = |response: &Response| response.rseq == rseq;
    match wrong {
        Wrong::LastDecides => list.iter().rposition(is_of),
        _ => list.iter().position(is_of),
    }
}

/// The bytes of the responses that aren't acknowledged: RSeq and code of each.
fn pending(wrong: Wrong, list: &[Response]) -> Vec<u8> {
    let listed = list
        .iter()
        .filter(|response| !response.acknowledged || wrong == Wrong::ListsAcknowledged);
    listed
        .flat_map(|response| pending_bytes(response.rseq, response.code))
        .collect()
}

/// RSeq in four bytes and code in two.
pub fn pending_bytes(rseq: u32, code: u16) -> impl Iterator<Item = u8> {
    rseq.to_be_bytes().into_iter().chain(code.to_be_bytes())
}

/// What is held without the acknowledged responses of an RSeq.
fn pruned(wrong: Wrong, held: &Entry, rseq: u32) -> Entry {
    let mut entry = held.clone();
    let mut dropped = 0;
    if let Some(list) = &mut entry.list {
        list.retain(|response| {
            let acknowledged = response.acknowledged || wrong == Wrong::DropsOpen;
            let enough = dropped == 1 && wrong == Wrong::DropsOne;
            let goes = response.rseq == rseq && acknowledged && !enough;
            dropped += usize::from(goes);
            !goes
        });
    }
    if wrong == Wrong::DropsEmptied && entry.responses().is_empty() {
        entry.list = None;
    }
    entry
}
