//! Tags by change request 3, in the run's own reading of its sentence: "The tag reader shall cut only at semicolons outside quotes
//! (a backslash in quotes covers the next byte) and outside angle brackets; read from the left, an opened quote or bracket holds
//! all up to its own close or the end." The Rust cuts at every semicolon. Where a value holds none, the Rust says what must be,
//! and this reading must say the same, or the run stops; where a value holds one, this reading says it.

use crate::bounds;
use crate::messages::{request, response};
use crate::places::{first_value, held, trim};
use crate::rules;
use sip_core::{Headers, Method};
use sip_dialog::DialogId;
use std::ops::Range;

/// Where what is opened at a place is closed; the value's end where it isn't.
type Close = fn(&[u8], usize) -> usize;

/// How values are read: where quotes end, and where brackets do.
pub struct Reading {
    pub quotes: Close,
    pub brackets: Close,
}

/// The request's reading.
pub const REQUEST_3: Reading = Reading {
    quotes: close_of_quotes,
    brackets: close_of_brackets,
};

/// The next `"` that no backslash covers.
pub fn close_of_quotes(value: &[u8], open: usize) -> usize {
    let mut place = open + 1;
    while place < value.len() && value[place] != b'"' {
        place += if value[place] == b'\\' { 2 } else { 1 };
    }
    place.min(value.len())
}

/// The next `>`.
pub fn close_of_brackets(value: &[u8], open: usize) -> usize {
    let length = value[open..].iter().position(|byte| *byte == b'>');
    length.map_or(value.len(), |length| open + length)
}

/// What quotes and brackets hold, and where the semicolons stand that cut.
struct Cuts {
    quoted: Vec<Range<usize>>,
    bracketed: Vec<Range<usize>>,
    cuts: Vec<usize>,
}

/// Reads a value from the left.
fn cuts(reading: &Reading, value: &[u8]) -> Cuts {
    let mut found = Cuts {
        quoted: Vec::new(),
        bracketed: Vec::new(),
        cuts: Vec::new(),
    };
    let mut place = 0;
    while place < value.len() {
        let open = place;
        match value[place] {
            b';' => found.cuts.push(place),
            b'"' => {
                place = (reading.quotes)(value, open);
                found.quoted.push(open..place);
            }
            b'<' => {
                place = (reading.brackets)(value, open);
                found.bracketed.push(open..place);
            }
            _ => {}
        }
        place += 1;
    }
    found
}

/// The tag in the value at `at`: the rest of the first segment that, trimmed, begins with `tag=`.
pub fn tag(bytes: &[u8], at: Range<usize>) -> Option<Range<usize>> {
    tag_by(&REQUEST_3, bytes, at)
}

/// The same by any reading.
pub fn tag_by(reading: &Reading, bytes: &[u8], at: Range<usize>) -> Option<Range<usize>> {
    let cuts = cuts(reading, &bytes[at.clone()]).cuts;
    let ends = cuts.iter().map(|cut| at.start + cut).chain([at.end]);
    let mut start = at.start;
    for end in ends {
        let range = trim(bytes, start..end);
        let text = &bytes[range.clone()];
        if text.len() >= 4 && text[..4].eq_ignore_ascii_case(b"tag=") {
            return Some(range.start + 4..range.end);
        }
        start = end + 1;
    }
    None
}

/// Whether a value holds a semicolon, in quotes or in brackets.
pub fn holds(value: &[u8]) -> bool {
    let semicolons = value.iter().filter(|byte| **byte == b';').count();
    cuts(&REQUEST_3, value).cuts.len() < semicolons
}

/// What is bounded of an operation's values: who says their tags, what holds a semicolon in them, and whether one that holds a
/// semicolon leads to an answer.
const SAID_BY: &str = "tags said by";
const HELD: &str = "semicolon held";
const ANSWER: &str = "semicolon held, answer";

/// Says who says the tags of these values, and what holds semicolons in them; whether any does.
pub fn meet(operation: &'static str, values: &[&[u8]]) -> bool {
    let held = values.iter().any(|value| holds(value));
    let who = match held {
        true => "the run's own reading",
        false => "the Rust",
    };
    bounds::met(operation, SAID_BY, who);
    for value in values {
        let found = cuts(&REQUEST_3, value);
        let has = |part: &Range<usize>, byte: u8| value[part.clone()].contains(&byte);
        for part in found.quoted.iter().filter(|part| has(part, b';')) {
            let side = match part.end == value.len() {
                true => "by quotes left open",
                false => "in quotes",
            };
            bounds::met(operation, HELD, side);
            if has(part, b'\\') {
                bounds::met(operation, HELD, "in quotes with a backslash");
            }
        }
        for part in found.bracketed.iter().filter(|part| has(part, b';')) {
            let side = match part.end == value.len() {
                true => "by a bracket left open",
                false => "in brackets",
            };
            bounds::met(operation, HELD, side);
        }
    }
    held
}

/// Says whether values of which one holds a semicolon lead to a tag, an identifier or a record.
pub fn meet_answer(operation: &'static str, held: bool, found: bool) {
    if held {
        bounds::met(operation, ANSWER, if found { "found" } else { "none" });
    }
}

/// Whose identifier a block gives: a request's or, for the two sides, a response's.
#[derive(Clone, Copy)]
pub enum Message {
    Request,
    ResponseUac,
    ResponseUas,
}

/// The values of From and To.
fn values(block: &[u8]) -> Vec<&[u8]> {
    let value = |name: &[u8]| first_value(block, name).map(|value| &block[value]);
    [value(b"From"), value(b"To")].into_iter().flatten().collect()
}

/// Whether From or To of a valid block holds a semicolon.
pub fn block_holds(block: &[u8]) -> bool {
    values(block).into_iter().any(holds)
}

/// Where the parts of a valid block's identifier lie: Call-ID, local tag, remote tag. They are the Rust's where From and To hold no
/// semicolon.
pub fn identifier(operation: &'static str, block: &[u8], message: Message) -> Option<[Range<usize>; 3]> {
    let held_one = meet(operation, &values(block));
    let parts = parts_by(&REQUEST_3, block, message);
    if !held_one {
        let id = rust_id(rules::headers(block).expect("a valid block"), message);
        let texts = id.as_ref().map(|id| [id.call_id(), id.local_tag(), id.remote_tag()]);
        assert_eq!(parts.is_some(), texts.is_some(), "the run's tags aren't the Rust's");
        for (part, text) in parts.iter().flatten().zip(texts.into_iter().flatten()) {
            held(block, Some(part.clone()), Some(text));
        }
    }
    parts
}

/// The same by any reading.
pub fn parts_by(reading: &Reading, block: &[u8], message: Message) -> Option<[Range<usize>; 3]> {
    let call_id = first_value(block, b"Call-ID")?;
    let tag = |name: &[u8]| tag_by(reading, block, first_value(block, name)?);
    let [from, to] = [tag(b"From")?, tag(b"To")?];
    Some(match message {
        Message::Request | Message::ResponseUac => [call_id, from, to],
        Message::ResponseUas => [call_id, to, from],
    })
}

/// The identifier of these parts.
pub fn id_of(block: &[u8], parts: &[Range<usize>; 3]) -> DialogId {
    let [call_id, local, remote] = parts
        .clone()
        .map(|part| std::str::from_utf8(&block[part]).expect("ASCII"));
    DialogId::unchecked_new(call_id, local, remote)
}

/// The identifier as the peer has it: the two tags swapped.
pub fn swapped(id: &DialogId) -> DialogId {
    DialogId::unchecked_new(id.call_id(), id.remote_tag(), id.local_tag())
}

/// The Rust's identifier of a message with these headers.
fn rust_id(headers: Headers, message: Message) -> Option<DialogId> {
    match message {
        Message::Request => DialogId::from_request(&request(Method::Invite, headers)),
        Message::ResponseUac => DialogId::from_response_uac(&response(200, headers)?),
        Message::ResponseUas => DialogId::from_response_uas(&response(200, headers)?),
    }
}

/// A valid block in which the values of From and To that hold a semicolon are others that hold none: with a tag where this reading
/// finds one, with none where it doesn't. The Rust is given it for what doesn't depend on the tags' texts.
pub fn without_held(block: &[u8]) -> Vec<u8> {
    rewritten(block, |value| {
        holds(value).then(|| tag(value, 0..value.len()).map(|_| b"x".to_vec()))
    })
}

/// A valid block in which the values of From and To have the tags that a reading finds, and hold no semicolon outside them.
pub fn with_tags_by(reading: &Reading, block: &[u8]) -> Vec<u8> {
    rewritten(block, |value| {
        Some(tag_by(reading, value, 0..value.len()).map(|tag| value[tag].to_vec()))
    })
}

/// A valid block in which the values of From and To are rewritten where a tag, or none, is given for them.
fn rewritten(block: &[u8], tag_for: impl Fn(&[u8]) -> Option<Option<Vec<u8>>>) -> Vec<u8> {
    let mut block = block.to_vec();
    for name in [b"From".as_slice(), b"To"] {
        let Some(at) = first_value(&block, name) else {
            continue;
        };
        if let Some(tag) = tag_for(&block[at.clone()]) {
            let value = tag.map_or(Vec::new(), |tag| [b"tag=", tag.as_slice()].concat());
            block.splice(at, value);
        }
    }
    block
}
