//! Header values: comma parts, the Contact, the route set, Session-Expires.

use super::{lent_list_part, lent_part, take_part, LIST_PART, PART};
use crate::answer::{lent_as, Answer, Input, Out, Step, Width, NOTHING};
use crate::blocks::{each_block, Blocks};
use crate::messages::response;
use crate::places;
use crate::random::Random;
use crate::rules;
use crate::run::{Feed, Operation};
use crate::texts::{each_value, number_text, recased, sequence, Values};
use crate::uris::{long_uri, short_uri, uri_text};
use sip_core::{RefresherRole, SipUri};
use sip_dialog::storage::private;
use sip_dialog::DialogError;
use smol_str::SmolStr;
use std::ops::Range;

/// What a Session-Expires value says.
const EXPIRES: &[Out] = &[("found", Width::U8), ("seconds", Width::U32), ("refresher", Width::U8)];

pub const OPERATIONS: &[Operation] = &[
    Operation {
        name: "next_header_value, to the end",
        against: "Rust split_header_values",
        texts: &["value"],
        numbers: &[],
        outs: LIST_PART,
        rows: &[0, 1, 2, NOTHING],
        expect: expect_split,
        ask: ask_split,
        inputs: |feed| each_value(feed, &PARTS, &|feed, value| feed.compare(&Input::text(value))),
        fault: "angle brackets in quotes aren't counted",
        distort: distort_split,
    },
    Operation {
        name: "contact",
        against: "Rust extract_contact_uri over the stand-in SipUri",
        texts: &["block"],
        numbers: &[],
        outs: PART,
        rows: &[0, 1, 2, NOTHING],
        expect: expect_contact,
        ask: ask_contact,
        inputs: |feed| each_block(feed, &CONTACTS, &|feed, block| feed.compare(&Input::text(block))),
        fault: "a second Contact line is asked where the first is unreadable",
        distort: distort_contact,
    },
    Operation {
        name: "route_count",
        against: "Rust build_route_set over the stand-in SipUri",
        texts: &["block"],
        numbers: &[],
        outs: &[("count", Width::U64)],
        rows: &[0, 1, 2, 7, 8],
        expect: expect_route_count,
        ask: ask_route_count,
        inputs: |feed| each_route_block(feed, &|feed, block| feed.compare(&Input::text(block))),
        fault: "routes are counted after parsing: a 51st unreadable part is skipped",
        distort: distort_route_count,
    },
    Operation {
        name: "route",
        against: "Rust build_route_set over the stand-in SipUri",
        texts: &["block"],
        numbers: &["reversed", "index"],
        outs: PART,
        rows: &[0, 1, 2, 7, 8, NOTHING],
        expect: expect_route,
        ask: ask_route,
        inputs: |feed| each_route_block(feed, &give_route),
        fault: "each line is reversed by itself",
        distort: distort_route,
    },
    Operation {
        name: "parse_session_expires",
        against: "stand-in from 01 (parse_session_expires)",
        texts: &["value"],
        numbers: &[],
        outs: EXPIRES,
        rows: &[0, 1, 2, NOTHING],
        expect: expect_session_value,
        ask: |input, answer| ask_session(input, answer, port::parse_session_expires),
        inputs: |feed| each_value(feed, &EXPIRES_VALUES, &|feed, value| feed.compare(&Input::text(value))),
        fault: "a `+` before the digits is taken",
        distort: distort_session_value,
    },
    Operation {
        name: "session_expires",
        against: "Rust extract_session_timer over the stand-in parse_session_expires",
        texts: &["block"],
        numbers: &[],
        outs: EXPIRES,
        rows: &[0, 1, 2, NOTHING],
        expect: expect_session_block,
        ask: |input, answer| ask_session(input, answer, port::session_expires),
        inputs: |feed| each_block(feed, &EXPIRES_BLOCKS, &|feed, block| feed.compare(&Input::text(block))),
        fault: "0 seconds count as no interval",
        distort: distort_session_block,
    },
];

const PART_PIECES: &[&str] = &[",", "\"", "<", ">", " ", "\t", "a", "<b,c>"];

const PARTS: Values = Values {
    templates: &["\"a,b\" <c,d>, e ,f"],
    pieces: PART_PIECES,
    longest: 6,
    write: |random| sequence(random, PART_PIECES, 24),
    fillers: b" \t,a<>\"",
};

/// The comma parts as steps, then the end asked for at it and beyond it.
fn list_steps(answer: &Answer, parts: &[(Range<usize>, usize)]) -> Vec<Step> {
    let found = |part: &(Range<usize>, usize)| {
        let (range, next) = part;
        [0, 1, range.start as u64, range.len() as u64, *next as u64]
    };
    let [_, place, length, next, ..] = answer.outs;
    let mut steps: Vec<Step> = parts.iter().map(found).collect();
    steps.extend([[0, 0, place, length, next]; 3]);
    steps
}

/// The Rust's parts, at their places, then the end.
fn expect_split(input: &Input, answer: &mut Answer) -> Result<(), u8> {
    let value = match rules::value(input.texts[0]) {
        Ok(value) => value,
        Err(number) => {
            let [found, place, length, next, ..] = answer.outs;
            answer.steps.push([u64::from(number), found, place, length, next]);
            return Err(number);
        }
    };
    let parts = places::parts(input.texts[0], 0..value.len());
    let texts: Vec<&str> = parts.iter().map(|(part, _)| &value[part.clone()]).collect();
    let rust = private::split_header_values(value);
    assert_eq!(texts, rust, "the run's parts aren't the Rust's");
    answer.steps = list_steps(answer, &parts);
    Ok(())
}

/// The port's parts from place 0 to the end and beyond it.
fn ask_split(input: &Input, answer: &mut Answer) -> u8 {
    let value = input.texts[0];
    let mut from = 0;
    // After the last part: beyond the value, and far beyond it.
    let mut beyond = [value.len() + 1, usize::MAX].into_iter();
    loop {
        let mut part = lent_list_part(answer);
        let number = port::next_header_value(value, from, &mut part);
        let (place, length) = (part.place as u64, part.length as u64);
        let found = u64::from(part.found);
        answer
            .steps
            .push([u64::from(number), found, place, length, part.next as u64]);
        if number != 0 {
            return number;
        }
        // A `next` that doesn't rise is a difference already: the list must end.
        let more = part.found != 0 && part.next > from;
        match if more { Some(part.next) } else { beyond.next() } {
            Some(next) => from = next,
            None => return 0,
        }
    }
}

/// Cuts as if quotes hid angle brackets.
fn distort_split(input: &Input, answer: &mut Answer) {
    if answer.number == 0 {
        let mut quoted = false;
        let mut value = input.texts[0].to_vec();
        for byte in &mut value {
            match byte {
                b'"' => quoted = !quoted,
                b'<' | b'>' if quoted => *byte = b'a',
                _ => {}
            }
        }
        answer.steps = list_steps(answer, &places::parts(&value, 0..value.len()));
    }
}

const CONTACTS: Blocks = Blocks {
    templates: &["Contact: <sip:a@b>;x\r\nContact:sip:c\r\n"],
    name: "Contact",
    pieces: &["sip:", "a", "@", "<", ">", ";", " ", "\""],
    longest: 5,
    lines: &[
        "Contact:<sip:a@b>\r\n",
        "CONTACT: sip:c;x\r\n",
        "contact:\r\n",
        "Contact:x\r\n",
        "m:<sip:d>\r\n",
        "Q:1\r\n",
        "Contact:<sip:e\r\n",
    ],
    longest_lines: 4,
    names: &["Contact"],
    write: |random, _| {
        let open = random.pick(&["<", "< ", "\"n\" <", "", "n <"]);
        let close = random.pick(&[">", ">;q=1", " >", "", ";x"]);
        [open.as_bytes(), &uri_text(random), close.as_bytes()].concat()
    },
};

/// The Rust's Contact, at its place.
fn expect_contact(input: &Input, answer: &mut Answer) -> Result<(), u8> {
    let block = input.texts[0];
    let uri = private::extract_contact_uri(&rules::headers(block)?);
    let value = places::first_value(block, b"Contact");
    let place = value.and_then(|value| places::uri(block, value));
    answer.give_part(places::held(block, place, uri.as_ref().map(SipUri::as_str)));
    Ok(())
}

/// The port's Contact.
fn ask_contact(input: &Input, answer: &mut Answer) -> u8 {
    let mut part = lent_part(answer);
    let number = port::contact(input.texts[0], &mut part);
    take_part(answer, part);
    number
}

/// Gives the first readable Contact.
fn distort_contact(input: &Input, answer: &mut Answer) {
    let block = input.texts[0];
    if answer.number == 0 && answer.outs[0] == 0 {
        let lines = places::lines(block, b"Contact").into_iter();
        let readable = lines.filter_map(|line| places::uri(block, line.value)).next();
        answer.give_part(readable);
    }
}

const ROUTES: Blocks = Blocks {
    templates: &["Record-Route:<sip:a@b>, sip:c;x\r\nRecord-Route:<sip:d>\r\n"],
    name: "Record-Route",
    pieces: &["<sip:a>", ",", "\"", "<", ">", "sip:b", " ", "x"],
    longest: 5,
    lines: &[
        "Record-Route:<sip:a>,<sip:b>\r\n",
        "record-route:sip:c;x\r\n",
        "Record-Route:\r\n",
        "RECORD-ROUTE: x , <sip:d> \r\n",
        "X:1\r\n",
        "Route:<sip:e>\r\n",
    ],
    longest_lines: 5,
    names: &["Record-Route", "Record-Route"],
    write: |random, _| route_value(random, 3),
};

/// The blocks that every operation gets, then as many with about 50 routes.
fn each_route_block(feed: &mut Feed, give: &dyn Fn(&mut Feed, &[u8])) {
    each_block(feed, &ROUTES, give);
    for _ in 0..feed.calls / 4 {
        let block = full_route_block(&mut feed.random);
        give(feed, &block);
    }
}

/// A Record-Route value of up to `most` parts: readable, skipped, empty, or with a URI at the estimate's limit.
pub fn route_value(random: &mut Random, most: usize) -> Vec<u8> {
    let mut value = Vec::new();
    for index in 0..random.below(most + 1) {
        if index > 0 {
            value.extend(random.pick(&[",", ", ", "\t,", ",,", ", ,"]).bytes());
        }
        match random.below(16) {
            0 => value.extend(b"x"),
            1 => value.extend(b"\"a,b\" "),
            2 => value.extend(bracketed(&long_uri(random))),
            3 => value.extend(bracketed(&uri_text(random))),
            _ => value.extend(bracketed(&short_uri(random))),
        }
    }
    value
}

/// A URI in angle brackets.
pub fn bracketed(uri: &[u8]) -> Vec<u8> {
    [b"<", uri, b">"].concat()
}

/// A block with 48 to 52 readable routes over several lines, with skipped and empty parts between them, and at times
/// one more part at the end that is unreadable, too long or empty.
pub fn full_route_block(random: &mut Random) -> Vec<u8> {
    let mut block = b"Record-Route:".to_vec();
    let routes = 48 + random.below(5);
    for index in 0..routes {
        if index > 0 && random.one_in(20) {
            block.extend(b"\r\nX:,<sip:x>\r\nrecord-ROUTE: ");
        } else if index > 0 {
            block.extend(random.pick(&[",", ",", ", ", ",,", ",y,"]).bytes());
        }
        block.extend(bracketed(&short_uri(random)));
    }
    match random.below(8) {
        0 => block.extend(b",x"),
        1 => block.extend(b", ,\t"),
        2 => block.extend([b",", bracketed(&long_uri(random)).as_slice()].concat()),
        3 => block.extend(b"\r\nRecord-Route:x"),
        4 => block.extend(b"\r\nRecord-Route: , "),
        _ => {}
    }
    block.extend(b"\r\n");
    block
}

/// Asks for one route of the block, from its front or reversed.
fn give_route(feed: &mut Feed, block: &[u8]) {
    let random = &mut feed.random;
    let index = match random.below(4) {
        0 => random.pick(&[0, 1, 2, 47, 48, 49, 50, 51, u64::MAX]),
        1 => random.below(52) as u64,
        _ => random.below(3) as u64,
    };
    let reversed = u64::from(random.one_in(2));
    feed.compare(&Input::text(block).and_number(0, reversed).and_number(1, index));
}

/// The Rust's route set and the places of its texts, after the refusals.
fn routes(block: &[u8], reversed: bool) -> Result<Vec<Range<usize>>, u8> {
    let headers = rules::headers(block)?;
    let uris = private::build_route_set(&headers, reversed).map_err(|error| match error {
        DialogError::UriTooLong { .. } => 7,
        DialogError::RouteSetTooLarge { .. } => 8,
        other => panic!("build_route_set says {other}"),
    })?;
    let mut places = places::routes_by_line(block).concat();
    if reversed {
        places.reverse();
    }
    let texts: Vec<&[u8]> = places.iter().map(|place| &block[place.clone()]).collect();
    let rust: Vec<&[u8]> = uris.iter().map(|uri| uri.as_str().as_bytes()).collect();
    assert_eq!(texts, rust, "the run's routes aren't the Rust's");
    Ok(places)
}

/// The size of the Rust's route set.
fn expect_route_count(input: &Input, answer: &mut Answer) -> Result<(), u8> {
    answer.outs[0] = routes(input.texts[0], false)?.len() as u64;
    Ok(())
}

/// The port's count.
fn ask_route_count(input: &Input, answer: &mut Answer) -> u8 {
    lent_as(&mut answer.outs[0], |count| port::route_count(input.texts[0], count))
}

/// Takes 50 routes and an unreadable part.
fn distort_route_count(input: &Input, answer: &mut Answer) {
    if answer.number == 8 && places::routes_by_line(input.texts[0]).concat().len() == 50 {
        answer.number = 0;
        answer.outs[0] = 50;
    }
}

/// One route of the Rust's, at its place.
fn expect_route(input: &Input, answer: &mut Answer) -> Result<(), u8> {
    let [reversed, index, ..] = input.numbers;
    let routes = routes(input.texts[0], reversed == 1)?;
    let index = usize::try_from(index).unwrap_or(usize::MAX);
    answer.give_part(routes.get(index).cloned());
    Ok(())
}

/// The port's route.
fn ask_route(input: &Input, answer: &mut Answer) -> u8 {
    let [reversed, index, ..] = input.numbers;
    let mut part = lent_part(answer);
    let number = port::route(input.texts[0], reversed == 1, index as usize, &mut part);
    take_part(answer, part);
    number
}

/// Reverses each line by itself.
fn distort_route(input: &Input, answer: &mut Answer) {
    let [reversed, index, ..] = input.numbers;
    if answer.number == 0 && answer.outs[0] == 1 && reversed == 1 {
        let mut lines = places::routes_by_line(input.texts[0]);
        lines.iter_mut().for_each(|line| line.reverse());
        answer.give_part(lines.concat().get(index as usize).cloned());
    }
}

const EXPIRES_VALUES: Values = Values {
    templates: &[" 90 ; refresher=uas;x", "4294967295"],
    pieces: &["0", "9", "4294967295", "+", ";", "refresher=", "uac", "UAS", " ", "x"],
    longest: 5,
    write: session_value,
    fillers: b"0 \t;9",
};

const EXPIRES_BLOCKS: Blocks = Blocks {
    templates: &["Session-Expires: 90 ;refresher=uac\r\n"],
    name: "Session-Expires",
    pieces: &["0", "90", "4294967296", "+", ";", "Refresher=uac", "refresher=", " "],
    longest: 5,
    lines: &[
        "Session-Expires:90\r\n",
        "SESSION-expires: 0 ; refresher=UAS\r\n",
        "Session-Expires:x\r\n",
        "session-expires:\r\n",
        "X:1\r\n",
        "x:90\r\n",
    ],
    longest_lines: 5,
    names: &["Session-Expires"],
    write: |random, _| session_value(random),
};

/// A number, then parts of which some name a refresher.
pub fn session_value(random: &mut Random) -> Vec<u8> {
    const PARTS: [&str; 8] = [
        "refresher=uac",
        "refresher=uas",
        " refresher=uas\t",
        "refresher = uac",
        "refresher=uacs",
        "refresher=",
        "x",
        "",
    ];
    let mut value = number_text(random);
    for _ in 0..random.below(4) {
        value.push(b';');
        let part = random.pick(&PARTS);
        value.extend(recased(random, part));
    }
    value
}

/// Gives seconds and refresher, or says that there are none.
fn give_session(answer: &mut Answer, said: Option<(u64, Option<RefresherRole>)>) {
    answer.outs[0] = u64::from(said.is_some());
    if let Some((seconds, refresher)) = said {
        answer.outs[1] = seconds;
        answer.outs[2] = match refresher {
            None => 0,
            Some(RefresherRole::Uac) => 1,
            Some(RefresherRole::Uas) => 2,
        };
    }
}

/// The stand-in's reading.
fn expect_session_value(input: &Input, answer: &mut Answer) -> Result<(), u8> {
    let value = SmolStr::new(rules::value(input.texts[0])?);
    let said = sip_parse::parse_session_expires(&value);
    give_session(
        answer,
        said.map(|said| (u64::from(said.delta_seconds()), said.refresher())),
    );
    Ok(())
}

/// The Rust's reading over the stand-in's.
fn expect_session_block(input: &Input, answer: &mut Answer) -> Result<(), u8> {
    let response = response(200, rules::headers(input.texts[0])?).expect("a status");
    let (interval, refresher) = private::extract_session_timer(&response);
    give_session(answer, interval.map(|interval| (interval.as_secs(), refresher)));
    Ok(())
}

/// The port's reading.
fn ask_session(input: &Input, answer: &mut Answer, function: fn(&[u8], &mut port::SessionExpires) -> u8) -> u8 {
    let mut said = port::SessionExpires {
        found: answer.outs[0] as u8,
        seconds: answer.outs[1] as u32,
        refresher: answer.outs[2] as u8,
    };
    let number = function(input.texts[0], &mut said);
    answer.outs[0] = u64::from(said.found);
    answer.outs[1] = u64::from(said.seconds);
    answer.outs[2] = u64::from(said.refresher);
    number
}

/// Reads the digits after a `+`.
fn distort_session_value(input: &Input, answer: &mut Answer) {
    let without_sign = input.texts[0].strip_prefix(b"+");
    if let (0, Some(value)) = (answer.number, without_sign) {
        answer.keep_all(EXPIRES);
        let _ = expect_session_value(&Input::text(value), answer);
    }
}

/// Finds nothing where the seconds are 0.
fn distort_session_block(_: &Input, answer: &mut Answer) {
    if answer.number == 0 && answer.outs[..2] == [1, 0] {
        answer.keep_all(EXPIRES);
        answer.outs[0] = 0;
    }
}
