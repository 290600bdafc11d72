//! The Rust's side: its `PrackValidator`, whose maps are private. They are filled by its own calls, under the run's clock, and
//! read from what the stand-in for `dashmap` prints of them.

use super::call::{Action, Call};
use super::layout::{Entry, Response};
use super::steps::{pending_bytes, Said};
use crate::bounds;
use crate::messages::request;
use crate::store::given::text_of;
use sip_core::{Headers, Method};
use sip_dialog::prack_validator::{PrackValidator, RAck};
use stand_in_std::time::{set_clock, set_next_reading};
use std::collections::HashMap;

/// A validator, where its two maps stand among those made (the lists first, then the times), and the bytes of each text that
/// it was given, by the text as it is printed.
pub struct Rust {
    validator: PrackValidator,
    maps: usize,
    ids: HashMap<String, Vec<u8>>,
}

/// Whether calls of the Rust can lead to this list. An acknowledged response behind another of its RSeq they can't.
pub fn can_hold(entry: &Entry) -> bool {
    let list = entry.responses();
    let is_first = |at: usize| list[..at].iter().all(|other| other.rseq != list[at].rseq);
    (0..list.len()).all(|at| !list[at].acknowledged || is_first(at))
}

impl Rust {
    /// A validator that holds nothing.
    pub fn new() -> Rust {
        let maps = dashmap::made();
        Rust {
            validator: PrackValidator::new(),
            maps,
            ids: HashMap::new(),
        }
    }

    /// The Rust's text for some bytes.
    fn text(&mut self, id: &[u8]) -> String {
        let text = text_of(id);
        self.ids.entry(format!("{text:?}")).or_insert_with(|| id.to_vec());
        text
    }

    /// Holds this for its text and nothing else. The clock gives each response its own time, and then that of the last
    /// cleanup, so that nothing is cleaned.
    pub fn hold(&mut self, entry: &Entry) {
        let text = self.text(&entry.id);
        self.validator.remove_dialog(&text);
        set_clock(entry.cleaned_at);
        self.validator.get_pending(&text);
        for response in entry.responses() {
            self.register(&text, response);
        }
        for response in entry.responses().iter().filter(|response| response.acknowledged) {
            self.acknowledge(&text, response);
        }
        if entry.list.as_ref().is_some_and(Vec::is_empty) {
            let gone = Response {
                rseq: 1,
                cseq: 1,
                method: 1,
                code: 180,
                acknowledged: true,
                registered_at: entry.cleaned_at,
            };
            self.register(&text, &gone);
            self.acknowledge(&text, &gone);
            self.validator.remove_pracked(&text, gone.rseq);
        }
    }

    /// Registers a response at its own time.
    fn register(&self, text: &str, response: &Response) {
        set_next_reading(response.registered_at);
        let method = Method::of_number(response.method).expect("a method");
        let Response { rseq, cseq, code, .. } = *response;
        self.validator
            .register_reliable_provisional(text, rseq, cseq, method, code);
    }

    /// Acknowledges the first response of its RSeq.
    fn acknowledge(&self, text: &str, response: &Response) {
        let method = Method::of_number(response.method).expect("a method");
        let value = format!("{} {} {}", response.rseq, response.cseq, method.as_str());
        let prack = request(Method::Prack, Headers::of_one("RAck", &value));
        assert!(self.validator.validate_prack(text, &prack).is_ok(), "acknowledged");
    }

    /// Drops what is held for a text.
    pub fn forget(&mut self, id: &[u8]) {
        let text = self.text(id);
        self.validator.remove_dialog(&text);
    }

    /// The Rust's answer to a call.
    pub fn ask(&mut self, call: &Call, headers: &Headers) -> Result<Said, u8> {
        let text = self.text(&call.id);
        set_clock(call.time().unwrap_or_default());
        let validator = &self.validator;
        match call.action {
            Action::Register {
                rseq,
                cseq,
                method,
                code,
                ..
            } => {
                let method = Method::of_number(method).expect("28 was asked before");
                validator.register_reliable_provisional(&text, rseq, cseq, method, code);
            }
            Action::Validate { .. } => {
                let said = validator.validate_prack(&text, &request(Method::Prack, headers.clone()));
                return said.map(rack).map_err(|error| number_of(call.name(), &error.0));
            }
            Action::IsPracked { rseq } => return Ok(Said::Pracked(validator.is_pracked(&text, rseq))),
            Action::GetPending { .. } => {
                let pending = validator.get_pending(&text).into_iter();
                let bytes = pending.flat_map(|(rseq, code)| pending_bytes(rseq, code));
                return Ok(Said::Pending(bytes.collect()));
            }
            Action::RemoveDialog => validator.remove_dialog(&text),
            Action::RemovePracked { rseq } => validator.remove_pracked(&text, rseq),
        }
        Ok(Said::Nothing)
    }

    /// All that the Rust holds, in ascending order of the texts.
    pub fn entries(&self) -> Vec<Entry> {
        let mut lists: HashMap<String, String> = dashmap::dump(self.maps).into_iter().collect();
        let times = dashmap::dump(self.maps + 1);
        let mut entries: Vec<Entry> = times
            .iter()
            .map(|(text, time)| Entry {
                id: self.ids[text].clone(),
                cleaned_at: time_in(time),
                list: lists.remove(text).map(|list| list_in(&list)),
            })
            .collect();
        assert!(lists.is_empty(), "a list without a time");
        entries.sort_by(|one, other| one.id.cmp(&other.id));
        entries
    }
}

/// The accepted RAck.
fn rack(rack: RAck) -> Said {
    Said::Rack {
        rseq: rack.rseq,
        cseq: rack.cseq,
        method: rack.method.number().expect("one of the fourteen"),
    }
}

/// The Rust's messages, by how they begin: the number, and what the tables say of 19.
const MESSAGES: [(&str, u8, &str); 10] = [
    ("PRACK missing RAck header", 19, "absent"),
    ("Invalid RAck format", 19, "not three parts"),
    ("Invalid RSeq in RAck", 19, "RSeq unreadable"),
    ("Invalid CSeq in RAck", 19, "CSeq unreadable"),
    ("Invalid method in RAck", 19, "method unreadable"),
    ("No pending reliable provisionals for dialog", 20, "readable"),
    ("RAck RSeq", 21, "readable"),
    ("RAck CSeq", 22, "readable"),
    ("RAck method", 23, "readable"),
    ("Duplicate PRACK for RSeq", 24, "readable"),
];

/// The number of a message.
fn number_of(operation: &'static str, message: &str) -> u8 {
    let known = MESSAGES.iter().find(|(front, _, _)| message.starts_with(front));
    let (_, number, rack) = known.unwrap_or_else(|| panic!("another message of the Rust: {message}"));
    bounds::met(operation, "RAck", rack);
    *number
}

/// The time in `Instant(5)`.
fn time_in(printed: &str) -> u64 {
    let digits = printed.strip_prefix("Instant(").and_then(|rest| rest.strip_suffix(')'));
    digits.and_then(|digits| digits.parse().ok()).expect("a time")
}

/// The responses in a printed list.
fn list_in(printed: &str) -> Vec<Response> {
    let inner = printed.strip_prefix('[').and_then(|rest| rest.strip_suffix(']'));
    let responses = inner.expect("a list").split("PendingReliable { ").skip(1);
    responses.map(response_in).collect()
}

/// The response in `rseq: 1, cseq: 1, method: Invite, code: 180, pracked: false, created_at: Instant(5) }`.
fn response_in(printed: &str) -> Response {
    let fields = printed.trim_end_matches([' ', ',', '}']).split(", ");
    let values: Vec<&str> = fields
        .zip(["rseq: ", "cseq: ", "method: ", "code: ", "pracked: ", "created_at: "])
        .map(|(field, name)| field.strip_prefix(name).expect("the fields of PendingReliable"))
        .collect();
    let number = |at: usize| values[at].parse::<u32>().expect("a number");
    Response {
        rseq: number(0),
        cseq: number(1),
        method: method_in(values[2]),
        code: u16::try_from(number(3)).expect("a code"),
        acknowledged: values[4].parse().expect("a flag"),
        registered_at: time_in(values[5]),
    }
}

/// The number of a printed method: its name in other letter case.
fn method_in(printed: &str) -> u8 {
    let method = Method::exact(&printed.to_ascii_uppercase());
    method.number().expect("one of the fourteen")
}
