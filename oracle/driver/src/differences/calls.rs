//! Calls without a store, on both sides, and their answers in words: the operations of the run, each with its Rust side and the
//! port's. A refusal is "refused" and its number, a text stands in `..`.

use super::row::Said;
use crate::answer::{Answer, Input};
use crate::dialogs;
use crate::operations;
use crate::run::{Operation, PATTERNS};

/// A header block of these lines.
pub fn block(lines: &[&str]) -> Vec<u8> {
    lines
        .iter()
        .flat_map(|line| [line.as_bytes(), b"\r\n"].concat())
        .collect()
}

/// The answers of the Rust and of the port, each to its own call.
pub fn answers(name: &str, [rust, port]: [&Input; 2]) -> [(&'static Operation, Answer); 2] {
    let mut all = operations::all().into_iter().chain(dialogs::all());
    let operation = all.find(|operation| operation.name == name).expect("an operation");
    let before = Answer::before(operation.outs, PATTERNS[0]);
    let [mut expected, mut answered] = [before.clone(), before];
    expected.number = (operation.expect)(rust, &mut expected).err().unwrap_or(0);
    answered.number = (operation.ask)(port, &mut answered);
    [(operation, expected), (operation, answered)]
}

/// An answer in words: those of an accepted one, or the refusal; with 13 its minimum.
pub fn in_words((operation, answer): &(&Operation, Answer), accepted: impl Fn(&Answer) -> String) -> String {
    let least = operation.outs.iter().position(|out| out.0 == "least");
    match (answer.number, least) {
        (0, _) => accepted(answer),
        (13, Some(least)) => format!("refused 13 with {}", answer.outs[least]),
        (number, _) => format!("refused {number}"),
    }
}

/// Both sides' answers to one call.
pub fn said(name: &str, input: &Input, accepted: impl Fn(&Answer) -> String) -> Said {
    let [rust, port] = answers(name, [input, input]).map(|answer| in_words(&answer, &accepted));
    Said { rust, port }
}

/// The text at a place of some bytes.
fn text_at(bytes: &[u8], place: u64, length: u64) -> String {
    let text = &bytes[place as usize..][..length as usize];
    format!("`{}`", text.escape_ascii())
}

/// A call that answers nothing but that it is accepted.
pub fn check(name: &str, input: &Input) -> Said {
    said(name, input, |_| "accepted".into())
}

/// A number that is read.
pub fn number(name: &str, input: &Input) -> Said {
    said(name, input, |answer| answer.outs[0].to_string())
}

/// Yes or no.
pub fn yes(name: &str, input: &Input) -> Said {
    said(name, input, |answer| ["no", "yes"][answer.outs[0] as usize].into())
}

/// A part of the first text, or nothing.
pub fn part(name: &str, input: &Input) -> Said {
    said(name, input, |answer| match answer.outs {
        [0, ..] => "nothing".into(),
        [_, place, length, ..] => text_at(input.texts[0], place, length),
    })
}

/// The tag of a value.
pub fn tag(value: &str) -> Said {
    said("extract_tag", &Input::text(value.as_bytes()), |answer| {
        text_at(value.as_bytes(), answer.outs[0], answer.outs[1])
    })
}

/// The URI in a value.
pub fn uri_in(value: &str) -> Said {
    part("parse_uri_from_header", &Input::text(value.as_bytes()))
}

/// The Contact's URI.
pub fn contact(lines: &[&str]) -> Said {
    part("contact", &Input::text(&block(lines)))
}

/// The identifier of a request: Call-ID, local and remote tag.
pub fn identifier(lines: &[&str]) -> Said {
    let block = block(lines);
    said("from_request", &Input::text(&block), |answer| {
        let parts = answer.outs[..6].chunks(2);
        let texts: Vec<String> = parts.map(|part| text_at(&block, part[0], part[1])).collect();
        texts.join(", ")
    })
}

/// `DialogId::new` of three texts.
pub fn id_of([call_id, local, remote]: [&str; 3]) -> Said {
    let input = Input::text(call_id.as_bytes()).and_text(1, local.as_bytes());
    check("dialog_id_new", &input.and_text(2, remote.as_bytes()))
}

/// How many routes a block has.
pub fn route_count(lines: &[&str]) -> Said {
    number("route_count", &Input::text(&block(lines)))
}

/// Its first route.
pub fn first_route(lines: &[&str]) -> Said {
    part("route", &Input::text(&block(lines)))
}

/// The elements of a value.
pub fn elements(value: &str) -> Said {
    said(
        "next_header_value, to the end",
        &Input::text(value.as_bytes()),
        |answer| {
            let found = answer.steps.iter().filter(|step| step[1] == 1);
            let texts: Vec<String> = found.map(|step| text_at(value.as_bytes(), step[2], step[3])).collect();
            format!("{}: {}", texts.len(), texts.join(" "))
        },
    )
}

/// What is read of a block alone.
pub fn number_in(name: &str, lines: &[&str]) -> Said {
    number(name, &Input::text(&block(lines)))
}

/// Seconds and refresher of a value (`parse_session_expires`) or a block (`session_expires`).
pub fn expires(name: &str, text: &[u8]) -> Said {
    said(name, &Input::text(text), |answer| match answer.outs {
        [0, ..] => "nothing".into(),
        [_, seconds, refresher, ..] => format!("{seconds} s, {}", side(refresher)),
    })
}

/// A refresher.
pub fn side(refresher: u64) -> &'static str {
    ["none", "uac", "uas"][refresher as usize]
}

/// The parts of a RAck.
pub fn rack(value: &str) -> Said {
    said("parse_rack", &Input::text(value.as_bytes()), |answer| {
        let [rseq, cseq, method, ..] = answer.outs;
        format!("RSeq {rseq}, CSeq {cseq}, method {method}")
    })
}

/// Whether a URI is readable.
pub fn uri(text: &str) -> Said {
    check("sip_uri", &Input::text(text.as_bytes()))
}

/// The user of a URI.
pub fn user(text: &str) -> Said {
    said("sip_uri", &Input::text(text.as_bytes()), |answer| {
        text_at(text.as_bytes(), answer.outs[1], answer.outs[2])
    })
}
