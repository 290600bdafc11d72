//! The header block: its form, the first line of a name, all lines of a name.

use super::{lent_list_part, lent_part, take_part, LIST_PART, PART};
use crate::answer::{Answer, Input, NOTHING};
use crate::blocks::{each_block, Blocks};
use crate::places;
use crate::random::Random;
use crate::rules;
use crate::run::{Feed, Operation};
use crate::texts::{damage, near, recased, sequence, spelled};
use sip_core::block::Line;

pub const OPERATIONS: &[Operation] = &[
    Operation {
        name: "check_block",
        against: "stand-in from 01 (block)",
        texts: &["block"],
        numbers: &[],
        outs: &[],
        rows: &[0, 1, 2],
        expect: expect_check_block,
        ask: |input, _| port::check_block(input.texts[0]),
        inputs: |feed| each_block(feed, &FORMS, &|feed, block| feed.compare(&Input::text(block))),
        fault: "a last line without its CRLF is taken",
        distort: distort_check_block,
    },
    Operation {
        name: "header",
        against: "stand-in from 01 (Headers::get)",
        texts: &["block", "name"],
        numbers: &[],
        outs: PART,
        rows: &[0, 1, 2, NOTHING],
        expect: expect_header,
        ask: ask_header,
        inputs: |feed| each_block(feed, &LINES, &give_named),
        fault: "the second line of a name is given instead of the first",
        distort: distort_header,
    },
    Operation {
        name: "next_header",
        against: "stand-in from 01 (get_all_smol)",
        texts: &["block", "name"],
        numbers: &["from"],
        outs: LIST_PART,
        rows: &[0, 1, 2, NOTHING],
        expect: expect_next_header,
        ask: ask_next_header,
        inputs: |feed| each_block(feed, &LINES, &give_named),
        fault: "a line that starts exactly at `from` is passed over",
        distort: distort_next_header,
    },
    Operation {
        name: "next_header, to the end",
        against: "stand-in from 01 (get_all_smol)",
        texts: &["block", "name"],
        numbers: &[],
        outs: LIST_PART,
        rows: &[0, 1, 2, NOTHING],
        expect: expect_all_headers,
        ask: ask_all_headers,
        inputs: |feed| each_block(feed, &LINES, &give_named),
        fault: "an empty value ends the list",
        distort: distort_all_headers,
    },
    Operation {
        name: "header, either spelling",
        against: "stand-in from 02, request 1 (Headers::get)",
        texts: &["block", "name"],
        numbers: &[],
        outs: PART,
        rows: &[0, 1, 2, NOTHING],
        expect: expect_header,
        ask: ask_header,
        inputs: |feed| each_block(feed, &SPELLINGS, &give_spelled),
        fault: "a line of the full name is preferred to an earlier one of the short name",
        distort: distort_full_first,
    },
    Operation {
        name: "header, asked by a short name",
        against: "stand-in from 02, request 1 (Headers::get)",
        texts: &["block", "name"],
        numbers: &[],
        outs: PART,
        rows: &[0, 1, 2, NOTHING],
        expect: expect_header,
        ask: ask_header,
        inputs: |feed| each_block(feed, &SPELLINGS, &give_spelled),
        fault: "a line of the full name isn't found by its short name",
        distort: distort_one_direction,
    },
    Operation {
        name: "header, five short names",
        against: "stand-in from 02, request 1 (Headers::get)",
        texts: &["block", "name"],
        numbers: &[],
        outs: PART,
        rows: &[0, 1, 2, NOTHING],
        expect: expect_header,
        ask: ask_header,
        inputs: |feed| each_block(feed, &SPELLINGS, &give_spelled),
        fault: "lines named `x` are passed over",
        distort: distort_without_x,
    },
    Operation {
        name: "next_header, either spelling",
        against: "stand-in from 02, request 1 (get_all_smol)",
        texts: &["block", "name"],
        numbers: &[],
        outs: LIST_PART,
        rows: &[0, 1, 2, NOTHING],
        expect: expect_all_headers,
        ask: ask_all_headers,
        inputs: |feed| each_block(feed, &SPELLINGS, &give_spelled),
        fault: "of all lines those with a name of one letter are left out",
        distort: distort_full_alone,
    },
];

/// Blocks that are at the bounds of the form.
const FORMS: Blocks = Blocks {
    templates: &["Ab-9:x y\r\nC: \r\n", "a:\r\n"],
    name: "Aa",
    pieces: &["a", "Z", " ", "\t", ":", "~", "\r", "\n", "\x7f"],
    longest: 4,
    lines: &["a", "A", "-", ":", " ", "\r\n", "\r", "\n"],
    longest_lines: 6,
    names: &["a", "Aa", "-", "a"],
    write: some_value,
};

/// Blocks of several lines whose names differ by letter case or by one letter.
const LINES: Blocks = Blocks {
    templates: &["a:1\r\nAa: x\r\n-:\r\n"],
    name: "Aa",
    pieces: &["a", " ", "\t", ":", "~", "\r\n", "aa:"],
    longest: 5,
    lines: &[
        "a:\r\n",
        "A: x \r\n",
        "aa:\ty\r\n",
        "aA: \t\r\n",
        "-:-\r\n",
        "b:1:2\r\n",
        "a:z\r\n",
        "a :\r\n",
    ],
    longest_lines: 5,
    names: &["a", "Aa", "-", "a"],
    write: some_value,
};

/// Blocks whose lines have both spellings of the five names, in every order, and names of one letter that are no spelling.
const SPELLINGS: Blocks = Blocks {
    templates: &["i:1\r\nCall-ID: 2\r\nx:3\r\n"],
    name: "Session-Expires",
    pieces: &["a", " ", ":", "\r\n", "X:", "t:"],
    longest: 4,
    lines: &[
        "i:1\r\n",
        "Call-ID:2\r\n",
        "F: 3\r\n",
        "from:4\r\n",
        "t:\t5\r\n",
        "To:6 \r\n",
        "M:7\r\n",
        "CONTACT:8\r\n",
        "x:9\r\n",
        "Session-Expires:\r\n",
        "v:1\r\n",
    ],
    longest_lines: 4,
    names: &["Call-ID", "From", "To", "Contact", "Session-Expires", "Via", "v", "c"],
    write: some_value,
};

/// Asks for a name with two spellings, in one of them and in some letter case, or for one of another header.
fn give_spelled(feed: &mut Feed, block: &[u8]) {
    let random = &mut feed.random;
    let name = random.pick(&["Call-ID", "From", "To", "Contact", "Session-Expires"]);
    let mut name = match random.below(8) {
        0 => recased(random, "Via"),
        1 => recased(random, "v"),
        _ => spelled(random, name),
    };
    if random.one_in(20) {
        damage(random, &mut name);
    } else if random.one_in(200) {
        name = vec![b'i'; near(random, rules::LONGEST)];
    }
    feed.compare(&Input::text(block).and_text(1, &name));
}

/// Whether a line has a name of one letter.
fn is_short(line: &Line) -> bool {
    line.name.len() == 1
}

/// Gives the first line of the full name, if there is one.
fn distort_full_first(input: &Input, answer: &mut Answer) {
    let lines = named_lines(input).unwrap_or_default();
    if let Some(full) = lines.iter().find(|line| !is_short(line)) {
        answer.give_part(Some(full.value.clone()));
    }
}

/// Finds by a short name the lines of the short name alone.
fn distort_one_direction(input: &Input, answer: &mut Answer) {
    let lines = named_lines(input).unwrap_or_default();
    if input.texts[1].len() == 1 && !lines.is_empty() {
        answer.keep_all(PART);
        let short = lines.iter().find(|line| is_short(line));
        answer.give_part(short.map(|line| line.value.clone()));
    }
}

/// Passes over the lines named `x`.
fn distort_without_x(input: &Input, answer: &mut Answer) {
    let lines = named_lines(input).unwrap_or_default();
    let is_x = |line: &Line| input.texts[0][line.name.clone()].eq_ignore_ascii_case(b"x");
    if lines.iter().any(is_x) {
        answer.keep_all(PART);
        let other = lines.iter().find(|line| !is_x(line));
        answer.give_part(other.map(|line| line.value.clone()));
    }
}

/// Leaves out the steps of short names.
fn distort_full_alone(input: &Input, answer: &mut Answer) {
    let lines = named_lines(input).unwrap_or_default();
    let mut lines = lines.iter();
    answer
        .steps
        .retain(|step| step[1] == 0 || lines.next().is_none_or(|line| !is_short(line)));
}

/// A short value.
fn some_value(random: &mut Random, _: &str) -> Vec<u8> {
    sequence(random, &["a", "b c", "\t", ":", " ", "~", "1"], 4)
}

/// Names to ask for: held ones, ones that only resemble them, and ones that no line can have.
const NAMES: [&str; 12] = ["a", "A", "aa", "AA", "aA", "-", "--", "", "a:", " a", "x", "\u{e5}"];

/// Asks for a name in the block; at times the name is damaged or at the limit.
fn give_named(feed: &mut Feed, block: &[u8]) {
    let random = &mut feed.random;
    let name = random.pick(&NAMES);
    let mut name = recased(random, name);
    if random.one_in(200) {
        name = vec![b'a'; near(random, rules::LONGEST)];
    } else if random.one_in(20) {
        damage(random, &mut name);
    }
    let from = from_place(random, block);
    feed.compare(&Input::text(block).and_text(1, &name).and_number(0, from));
}

/// A place to ask from: 0, the start of a line, any place in the block or just after it, or far beyond.
fn from_place(random: &mut Random, block: &[u8]) -> u64 {
    let place = random.below(block.len() + 2);
    match random.below(8) {
        0..2 => 0,
        2..5 => {
            let line_end = block.iter().skip(place).position(|byte| *byte == b'\n');
            line_end.map_or(block.len(), |rest| place + rest + 1) as u64
        }
        5 => random.pick(&[u64::MAX, u64::MAX - 1, 1 << 32]),
        _ => place as u64,
    }
}

/// Refusals 1 and 2 alone.
fn expect_check_block(input: &Input, _: &mut Answer) -> Result<(), u8> {
    rules::headers(input.texts[0]).map(drop)
}

/// Accepts a block that lacks only its last CRLF.
fn distort_check_block(input: &Input, answer: &mut Answer) {
    let ended = [input.texts[0], b"\r\n"].concat();
    if answer.number == 2 && rules::headers(&ended).is_ok() {
        answer.number = 0;
    }
}

/// The lines of the asked name, after the refusals; the stand-in's values must be the bytes at their places.
fn named_lines(input: &Input) -> Result<Vec<Line>, u8> {
    let [block, name, ..] = input.texts;
    rules::limit(&[block, name])?;
    let headers = rules::headers(block)?;
    // A name that is no text is the name of no line.
    let Ok(text) = std::str::from_utf8(name) else {
        return Ok(Vec::new());
    };
    let lines = places::lines(block, name);
    let values: Vec<&[u8]> = headers.get_all_smol(text).map(|value| value.as_bytes()).collect();
    let places: Vec<&[u8]> = lines.iter().map(|line| &block[line.value.clone()]).collect();
    assert_eq!(values, places, "the run's places aren't the stand-in's values");
    assert_eq!(headers.get(text).map(str::as_bytes), values.first().copied());
    Ok(lines)
}

/// The first line of the name.
fn expect_header(input: &Input, answer: &mut Answer) -> Result<(), u8> {
    let first = named_lines(input)?.into_iter().next();
    answer.give_part(first.map(|line| line.value));
    Ok(())
}

/// The port's line.
fn ask_header(input: &Input, answer: &mut Answer) -> u8 {
    let mut part = lent_part(answer);
    let number = port::header(input.texts[0], input.texts[1], &mut part);
    take_part(answer, part);
    number
}

/// Gives the second line of the name, if there is one.
fn distort_header(input: &Input, answer: &mut Answer) {
    if let Some(second) = named_lines(input).unwrap_or_default().get(1) {
        answer.give_part(Some(second.value.clone()));
    }
}

/// The first line of the name that starts at `from` or after it.
fn expect_next_header(input: &Input, answer: &mut Answer) -> Result<(), u8> {
    let from = input.numbers[0];
    let lines = named_lines(input)?;
    let next = lines.iter().find(|line| line.whole.start as u64 >= from);
    give_step(answer, next);
    Ok(())
}

/// Gives one line as a step of the list.
fn give_step(answer: &mut Answer, line: Option<&Line>) {
    answer.give_part(line.map(|line| line.value.clone()));
    if let Some(line) = line {
        answer.outs[3] = line.whole.end as u64;
    }
}

/// The port's next line.
fn ask_next_header(input: &Input, answer: &mut Answer) -> u8 {
    let mut part = lent_list_part(answer);
    let from = input.numbers[0] as usize;
    let number = port::next_header(input.texts[0], input.texts[1], from, &mut part);
    answer.outs[..4].copy_from_slice(&[
        u64::from(part.found),
        part.place as u64,
        part.length as u64,
        part.next as u64,
    ]);
    number
}

/// Passes over a line that starts at `from`.
fn distort_next_header(input: &Input, answer: &mut Answer) {
    let from = input.numbers[0];
    let lines = named_lines(input).unwrap_or_default();
    if from > 0 && lines.iter().any(|line| line.whole.start as u64 == from) {
        answer.keep_all(LIST_PART);
        give_step(answer, lines.iter().find(|line| line.whole.start as u64 > from));
    }
}

/// All lines of the name as steps, then a step that finds nothing.
fn expect_all_headers(input: &Input, answer: &mut Answer) -> Result<(), u8> {
    let lines = named_lines(input);
    let kept = [answer.outs[1], answer.outs[2], answer.outs[3]];
    match lines {
        Err(number) => {
            let found = answer.outs[0];
            answer.steps.push([u64::from(number), found, kept[0], kept[1], kept[2]]);
            Err(number)
        }
        Ok(lines) => {
            let step = |line: &Line| {
                let value = &line.value;
                [0, 1, value.start as u64, value.len() as u64, line.whole.end as u64]
            };
            answer.steps.extend(lines.iter().map(step));
            answer.steps.push([0, 0, kept[0], kept[1], kept[2]]);
            Ok(())
        }
    }
}

/// The port's steps from place 0 to the end.
fn ask_all_headers(input: &Input, answer: &mut Answer) -> u8 {
    let [block, name, ..] = input.texts;
    let mut from = 0;
    loop {
        let mut part = lent_list_part(answer);
        let number = port::next_header(block, name, from, &mut part);
        let (place, length) = (part.place as u64, part.length as u64);
        let found = u64::from(part.found);
        answer
            .steps
            .push([u64::from(number), found, place, length, part.next as u64]);
        // A `next` that doesn't rise is a difference already: the list must end.
        if number != 0 || part.found == 0 || part.next <= from {
            return number;
        }
        from = part.next;
    }
}

/// Ends the list at the first empty value.
fn distort_all_headers(_: &Input, answer: &mut Answer) {
    let is_empty = |step: &[u64; 5]| step[1] == 1 && step[3] == 0;
    if let Some(first_empty) = answer.steps.iter().position(is_empty) {
        answer.steps.drain(first_empty..answer.steps.len() - 1);
    }
}
