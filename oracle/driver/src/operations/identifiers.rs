//! Dialog identifiers: the tag of a value, the checks of `DialogId::new`, the three parts in a block.

use super::{ask_places, ID_PARTS};
use crate::answer::{Answer, Input, Out, Width};
use crate::blocks::{each_block, Blocks};
use crate::misreadings::{CLOSED_BY_QUOTE, ENDED_BY_SEGMENT, ENDLESS_ESCAPE, EVERY_SEMICOLON, NESTED};
use crate::places;
use crate::random::Random;
use crate::rules::{self, LONGEST};
use crate::run::{Fault, Feed, Operation};
use crate::tags::{self, Message, Reading};
use crate::texts::{damage, each_replacement, each_sequence, each_value, front_of_tag, near, sequence, Values};
use sip_dialog::{DialogError, DialogId};
use smol_str::SmolStr;
use std::ops::Range;

const TAG: &str = "extract_tag";
const REQUEST: &str = "from_request";
const UAC: &str = "from_response_uac";
const UAS: &str = "from_response_uas";

const TAG_PARTS: &[Out] = &[("place", Width::U64), ("length", Width::U64)];

pub const OPERATIONS: &[Operation] = &[
    Operation {
        name: TAG,
        against: "Rust extract_tag; the run's own reading where a semicolon is held",
        texts: &["value"],
        numbers: &[],
        outs: TAG_PARTS,
        rows: &[0, 1, 2, 4],
        expect: expect_tag,
        ask: ask_tag,
        inputs: each_tag,
        fault: "the tag is trimmed at its front",
        distort: distort_tag,
    },
    Operation {
        name: "dialog_id_new",
        against: "Rust DialogId::new",
        texts: &["Call-ID", "local tag", "remote tag"],
        numbers: &[],
        outs: &[],
        rows: &[0, 1, 25, 26, 27],
        expect: expect_id_new,
        ask: |input, _| {
            let [call_id, local, remote, ..] = input.texts;
            port::dialog_id_new(call_id, local, remote)
        },
        inputs: each_identifier,
        fault: "byte 127 is taken",
        distort: distort_id_new,
    },
    Operation {
        name: REQUEST,
        against: "Rust DialogId::from_request, tags as in extract_tag",
        texts: &["block"],
        numbers: &[],
        outs: ID_PARTS,
        rows: &[0, 1, 2, 4],
        expect: |input, answer| expect_parts(REQUEST, input, answer, Message::Request),
        ask: |input, answer| ask_places(input, answer, port::from_request),
        inputs: |feed| each_block(feed, &BLOCKS, &|feed, block| feed.compare(&Input::text(block))),
        fault: "an empty From tag counts as absent",
        distort: |_, answer| refuse_empty(answer, 3),
    },
    Operation {
        name: UAC,
        against: "Rust DialogId::from_response_uac, tags as in extract_tag",
        texts: &["block"],
        numbers: &[],
        outs: ID_PARTS,
        rows: &[0, 1, 2, 4],
        expect: |input, answer| expect_parts(UAC, input, answer, Message::ResponseUac),
        ask: |input, answer| ask_places(input, answer, port::from_response_uac),
        inputs: |feed| each_block(feed, &BLOCKS, &|feed, block| feed.compare(&Input::text(block))),
        fault: "an empty Call-ID counts as absent",
        distort: |_, answer| refuse_empty(answer, 1),
    },
    Operation {
        name: UAS,
        against: "Rust DialogId::from_response_uas, tags as in extract_tag",
        texts: &["block"],
        numbers: &[],
        outs: ID_PARTS,
        rows: &[0, 1, 2, 4],
        expect: |input, answer| expect_parts(UAS, input, answer, Message::ResponseUas),
        ask: |input, answer| ask_places(input, answer, port::from_response_uas),
        inputs: |feed| each_block(feed, &BLOCKS, &|feed, block| feed.compare(&Input::text(block))),
        fault: "From's tag is the local one, as for uac",
        distort: |_, answer| {
            if answer.number == 0 {
                answer.outs.swap(2, 4);
                answer.outs.swap(3, 5);
            }
        },
    },
];

/// The faults of the tag reader, and that of one which holds no semicolon, in each operation that gives an identifier.
pub const FAULTS: &[Fault] = &[
    Fault {
        name: "extract_tag-escape",
        operation: TAG,
        what: "an escape that never ends",
        distort: |input, answer| misread_tag(&ENDLESS_ESCAPE, input, answer),
    },
    Fault {
        name: "extract_tag-bracket",
        operation: TAG,
        what: "a bracket closed by a quote",
        distort: |input, answer| misread_tag(&CLOSED_BY_QUOTE, input, answer),
    },
    Fault {
        name: "extract_tag-nested",
        operation: TAG,
        what: "brackets that nest",
        distort: |input, answer| misread_tag(&NESTED, input, answer),
    },
    Fault {
        name: "extract_tag-segment",
        operation: TAG,
        what: "a quote that ends at the end of a segment",
        distort: |input, answer| misread_tag(&ENDED_BY_SEGMENT, input, answer),
    },
    Fault {
        name: "from_request-cut",
        operation: REQUEST,
        what: "every semicolon cuts, as in the Rust",
        distort: |input, answer| misread_parts(input, answer, Message::Request),
    },
    Fault {
        name: "from_response_uac-cut",
        operation: UAC,
        what: "every semicolon cuts, as in the Rust",
        distort: |input, answer| misread_parts(input, answer, Message::ResponseUac),
    },
    Fault {
        name: "from_response_uas-cut",
        operation: UAS,
        what: "every semicolon cuts, as in the Rust",
        distort: |input, answer| misread_parts(input, answer, Message::ResponseUas),
    },
];

const TAG_PIECES: &[&str] = &[";", "tag=", "TaG=", "tag", "=", " ", "\t", "x", "\"", "<sip:a>", "t"];

const VALUES: Values = Values {
    templates: &["<sip:a>;x=1; tag=Ab1 ;y", "\"a\\\";b\" <c;d>;tag=x"],
    pieces: TAG_PIECES,
    longest: 5,
    write: |random| sequence(random, TAG_PIECES, 14),
    fillers: b" \t;xt=\"\\<>",
};

/// The pieces that hold semicolons, of which every sequence up to `LONGEST_HELD` is fed too.
const HELD_PIECES: &[&str] = &[";", "tag=", "x", "\"", "\\", "<", ">"];
const LONGEST_HELD: usize = 6;

/// The values that every operation gets, then those of quotes, backslashes and brackets.
fn each_tag(feed: &mut Feed) {
    each_value(feed, &VALUES, &|feed, value| feed.compare(&Input::text(value)));
    each_sequence(HELD_PIECES, LONGEST_HELD, &mut |value| {
        feed.compare(&Input::text(value))
    });
    for _ in 0..feed.calls {
        let value = sequence(&mut feed.random, HELD_PIECES, 20);
        feed.compare(&Input::text(&value));
    }
}

const BLOCKS: Blocks = Blocks {
    templates: &[
        "Call-ID: c\r\nFrom:a;tag=x\r\nTo:b; tag=y\r\n",
        "Call-ID:c\r\nFrom:\"\\\";\" <b;c>;tag=x\r\nTo:tag=y\r\n",
    ],
    name: "From",
    pieces: &["tag=", ";", " ", "x", "\"", "<", ">"],
    longest: 4,
    lines: &[
        "Call-ID:c\r\n",
        "I: d\r\n",
        "From:a;tag=x\r\n",
        "f: ;TAG= \r\n",
        "From:a\r\n",
        "To:b;tag=yy;tag=z\r\n",
        "to:tag=\r\n",
        "t:\r\n",
        "To:<b;tag=u>;tag=w\r\n",
        "Froms:;tag=w\r\n",
        "To:;tag=v\n",
    ],
    longest_lines: 5,
    names: &["Call-ID", "From", "To"],
    write: |random, name| match name {
        "Call-ID" => sequence(random, &["c1", "@", "h", " ", ";tag=q"], 3),
        _ if random.one_in(12) => sequence(random, TAG_PIECES, 8),
        _ => {
            let tail = sequence(random, &["x", "y", " ", ";a", ";tag=z"], 4);
            [front_of_tag(random).as_bytes(), &tail].concat()
        }
    },
};

/// The tag at its place; none is refusal 4. It is the Rust's where the value holds no semicolon.
fn expect_tag(input: &Input, answer: &mut Answer) -> Result<(), u8> {
    let value = rules::value(input.texts[0])?;
    let held = tags::meet(TAG, &[value.as_bytes()]);
    let place = tags::tag(input.texts[0], 0..value.len());
    if !held {
        let tag = sip_dialog::extract_tag(&SmolStr::new(value));
        places::held(input.texts[0], place.clone(), tag.as_deref());
    }
    tags::meet_answer(TAG, held, place.is_some());
    give_tag(answer, place.ok_or(4)?);
    Ok(())
}

/// Gives a tag's place and length.
fn give_tag(answer: &mut Answer, tag: Range<usize>) {
    answer.outs[0] = tag.start as u64;
    answer.outs[1] = tag.len() as u64;
}

/// A planted fault: answers the tag by another reading.
fn misread_tag(reading: &Reading, input: &Input, answer: &mut Answer) {
    let value = input.texts[0];
    if matches!(answer.number, 0 | 4) {
        let tag = tags::tag_by(reading, value, 0..value.len());
        answer.number = if tag.is_some() { 0 } else { 4 };
        answer.keep_all(TAG_PARTS);
        tag.into_iter().for_each(|tag| give_tag(answer, tag));
    }
}

/// The port's tag.
fn ask_tag(input: &Input, answer: &mut Answer) -> u8 {
    let mut place = answer.outs[0] as usize;
    let mut length = answer.outs[1] as usize;
    let number = port::extract_tag(input.texts[0], &mut place, &mut length);
    answer.outs[0] = place as u64;
    answer.outs[1] = length as u64;
    number
}

/// Leaves out the blank before a tag.
fn distort_tag(input: &Input, answer: &mut Answer) {
    if answer.number == 0 && answer.outs[1] > 0 {
        let first = input.texts[0][answer.outs[0] as usize];
        if first == b' ' || first == b'\t' {
            answer.outs[0] += 1;
            answer.outs[1] -= 1;
        }
    }
}

/// The Rust's own checks. Document 01 refuses bytes over 127 by 27 too, which the Rust would partly take as letters:
/// it is asked with 127 in their place, so that its order of checks holds.
fn expect_id_new(input: &Input, _: &mut Answer) -> Result<(), u8> {
    rules::limit(&input.texts)?;
    let ascii = |text: &[u8]| text.iter().map(|byte| char::from((*byte).min(127))).collect();
    let [call_id, local, remote, ..]: [String; 5] = input.texts.map(ascii);
    match DialogId::new(call_id, local, remote) {
        Ok(_) => Ok(()),
        Err(DialogError::InvalidCallId(_) | DialogError::InvalidTag(_)) => Err(25),
        Err(DialogError::CallIdTooLong { .. } | DialogError::TagTooLong { .. }) => Err(26),
        Err(DialogError::ContainsControlCharacters { .. }) => Err(27),
        Err(other) => panic!("DialogId::new says {other}"),
    }
}

/// Asks with a letter in place of byte 127.
fn distort_id_new(input: &Input, answer: &mut Answer) {
    let texts = input
        .texts
        .map(|text| text.iter().map(|byte| if *byte == 127 { b'x' } else { *byte }));
    let [call_id, local, remote, ..]: [Vec<u8>; 5] = texts.map(Iterator::collect);
    if answer.number == 27 {
        answer.number = port::dialog_id_new(&call_id, &local, &remote);
    }
}

/// Every byte in each of the three texts, all triples of short texts, then random ones at the limits.
fn each_identifier(feed: &mut Feed) {
    each_replacement(&["c-1"], &mut |text| {
        feed.compare(&triple(text, b"l", b"r"));
        feed.compare(&triple(b"c", text, b"r"));
        feed.compare(&triple(b"c", b"l", text));
    });
    let mut texts = Vec::new();
    let pieces = ["a", "\t", "\u{7f}", " ", "~"];
    each_sequence(&pieces, 2, &mut |text| texts.push(text.to_vec()));
    texts.extend([vec![128], vec![255, b'a'], "\u{e9}".as_bytes().to_vec()]);
    for call_id in &texts {
        for local in &texts {
            for remote in &texts {
                feed.compare(&triple(call_id, local, remote));
            }
        }
    }
    for _ in 0..feed.calls {
        let call_id = identifier_text(&mut feed.random, 256);
        let local = identifier_text(&mut feed.random, 128);
        let remote = identifier_text(&mut feed.random, 128);
        feed.compare(&triple(&call_id, &local, &remote));
    }
}

/// A call with the three parts of an identifier.
fn triple<'a>(call_id: &'a [u8], local: &'a [u8], remote: &'a [u8]) -> Input<'a> {
    Input::text(call_id).and_text(1, local).and_text(2, remote)
}

/// A text that is mostly good: any length up to the limit, at times at it or at document 01's, at times damaged.
fn identifier_text(random: &mut Random, limit: usize) -> Vec<u8> {
    let length = match random.below(40) {
        0 => near(random, LONGEST),
        1..7 => near(random, limit),
        7 => 0,
        _ => 1 + random.below(limit),
    };
    let mut text: Vec<u8> = (0..length).map(|_| 32 + random.below(95) as u8).collect();
    if random.one_in(8) {
        damage(random, &mut text);
    }
    text
}

/// The identifier, its parts at their places; none is refusal 4. It is the Rust's where From and To hold no semicolon.
fn expect_parts(operation: &'static str, input: &Input, answer: &mut Answer, message: Message) -> Result<(), u8> {
    let block = input.texts[0];
    rules::headers(block)?;
    let parts = tags::identifier(operation, block, message);
    tags::meet_answer(operation, tags::block_holds(block), parts.is_some());
    give_parts(answer, parts.ok_or(4)?);
    Ok(())
}

/// Gives the places and lengths of an identifier's parts.
fn give_parts(answer: &mut Answer, parts: [Range<usize>; 3]) {
    for (index, part) in parts.into_iter().enumerate() {
        answer.outs[2 * index] = part.start as u64;
        answer.outs[2 * index + 1] = part.len() as u64;
    }
}

/// A planted fault: answers the identifier with tags that every semicolon cuts.
fn misread_parts(input: &Input, answer: &mut Answer, message: Message) {
    if matches!(answer.number, 0 | 4) {
        let parts = tags::parts_by(&EVERY_SEMICOLON, input.texts[0], message);
        answer.number = if parts.is_some() { 0 } else { 4 };
        answer.keep_all(ID_PARTS);
        parts.into_iter().for_each(|parts| give_parts(answer, parts));
    }
}

/// A planted fault: 4 where the part whose length is at `index` is empty.
fn refuse_empty(answer: &mut Answer, index: usize) {
    if answer.number == 0 && answer.outs[index] == 0 {
        answer.number = 4;
        answer.keep_all(ID_PARTS);
    }
}
