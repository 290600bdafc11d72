//! Numbers and methods: CSeq, RSeq, RAck, method texts, reliable provisionals.

use crate::answer::{lent_as, lent_as_rack, Answer, Input, Out, Width, NOTHING};
use crate::blocks::{each_block, Blocks};
use crate::dialogs::room;
use crate::messages::response;
use crate::places;
use crate::random::Random;
use crate::rules;
use crate::run::{Feed, Operation};
use crate::texts::{each_value, method_text, number_text, Values, METHOD_TEXTS};
use sip_core::{Headers, Method};
use sip_dialog::prack_validator::{self, RAck};
use sip_dialog::storage::private;

/// The out numbers of a RAck.
const RACK: &[Out] = &[("RSeq", Width::U32), ("CSeq", Width::U32), ("method", Width::U8)];

pub const OPERATIONS: &[Operation] = &[
    Operation {
        name: "cseq_number",
        against: "Rust parse_cseq_number and extract_cseq_number",
        texts: &["block"],
        numbers: &[],
        outs: &[("number", Width::U32)],
        rows: &[0, 1, 2, 4],
        expect: expect_cseq_number,
        ask: |input, answer| ask_number(input, answer, port::cseq_number),
        inputs: |feed| each_block(feed, &CSEQ, &|feed, block| feed.compare(&Input::text(block))),
        fault: "a number of 33 bits is read by its low 32 bits",
        distort: distort_cseq_number,
    },
    Operation {
        name: "cseq_method",
        against: "Rust extract_cseq_method",
        texts: &["block"],
        numbers: &[],
        outs: &[("method", Width::U8)],
        rows: &[0, 1, 2, 4],
        expect: expect_cseq_method,
        ask: ask_cseq_method,
        inputs: |feed| each_block(feed, &CSEQ, &|feed, block| feed.compare(&Input::text(block))),
        fault: "a bad number spoils the method",
        distort: distort_cseq_method,
    },
    Operation {
        name: "rseq",
        against: "Rust extract_rseq",
        texts: &["block"],
        numbers: &[],
        outs: &[("number", Width::U32)],
        rows: &[0, 1, 2, 4],
        expect: expect_rseq,
        ask: |input, answer| ask_number(input, answer, port::rseq),
        inputs: |feed| each_block(feed, &RSEQ, &|feed, block| feed.compare(&Input::text(block))),
        fault: "the first token is read, as for CSeq",
        distort: distort_rseq,
    },
    Operation {
        name: "is_reliable_provisional",
        against: "Rust is_reliable_provisional",
        texts: &["block"],
        numbers: &["status"],
        outs: &[("yes", Width::U8)],
        rows: &[0, 1, 2, NOTHING],
        expect: expect_reliable,
        ask: ask_reliable,
        inputs: |feed| each_block(feed, &RSEQ, &give_with_status),
        fault: "a 100 with RSeq counts as reliable",
        distort: distort_reliable,
    },
    Operation {
        name: "method_number",
        against: "Rust parse_method, through extract_cseq_method",
        texts: &["text"],
        numbers: &[],
        outs: &[("found", Width::U8), ("method", Width::U8)],
        rows: &[0, 1, NOTHING],
        expect: expect_method_number,
        ask: ask_method_number,
        inputs: |feed| each_value(feed, &METHODS, &|feed, text| feed.compare(&Input::text(text))),
        fault: "a method in small letters is none",
        distort: distort_method_number,
    },
    Operation {
        name: "method_text",
        against: "stand-in from 01 (Method::as_str)",
        texts: &[],
        numbers: &["method", "lent"],
        outs: &[("length", Width::U64)],
        rows: &[0, 18, 28],
        expect: expect_method_text,
        ask: ask_method_text,
        inputs: each_method_text,
        fault: "a 0 is written after a text that fills its lent bytes",
        distort: distort_method_text,
    },
    Operation {
        name: "parse_rack",
        against: "Rust RAck::parse",
        texts: &["value"],
        numbers: &[],
        outs: RACK,
        rows: &[0, 1, 2, 19],
        expect: expect_rack,
        ask: ask_rack,
        inputs: |feed| each_value(feed, &RACKS, &|feed, value| feed.compare(&Input::text(value))),
        fault: "a fourth part is passed over",
        distort: distort_rack,
    },
    Operation {
        name: "format_rack",
        against: "Rust RAck::format",
        texts: &[],
        numbers: &["RSeq", "CSeq", "method", "lent"],
        outs: &[("length", Width::U64)],
        rows: &[0, 18, 28],
        expect: expect_format_rack,
        ask: ask_format_rack,
        inputs: each_format_rack,
        fault: "the front of the text is written although 18 is answered",
        distort: distort_format_rack,
    },
];

const CSEQ: Blocks = Blocks {
    templates: &["CSeq: 70 INVITE\r\nCSeq:5 BYE\r\n"],
    name: "CSeq",
    pieces: &["0", "1", "4294967295", "+", "-", " ", "\t", "INVITE", "ack"],
    longest: 5,
    lines: &[
        "CSeq:7 BYE\r\n",
        "CSEQ: +0 x\r\n",
        "cseq:\r\n",
        "CSeq:4294967296 ACK\r\n",
        "X:1\r\n",
        "CSeq2:5 ACK\r\n",
    ],
    longest_lines: 5,
    names: &["CSeq"],
    write: |random, _| {
        let number = number_text(random);
        let blank = random.pick(&[" ", "\t", "  ", "", " x "]);
        let tail = random.pick(&["", "", " x", "\tBYE"]);
        [&number, blank.as_bytes(), &method_text(random), tail.as_bytes()].concat()
    },
};

const RSEQ: Blocks = Blocks {
    templates: &["RSeq: 70\r\nRSeq:5\r\n"],
    name: "RSeq",
    pieces: &["0", "1", "4294967295", "+", "-", " ", "x"],
    longest: 5,
    lines: &[
        "RSeq:7\r\n",
        "RSEQ: +0\r\n",
        "rseq:\r\n",
        "RSeq:1 2\r\n",
        "X:1\r\n",
        "RSeqs:5\r\n",
    ],
    longest_lines: 5,
    names: &["RSeq"],
    write: |random, _| number_text(random),
};

/// The Rust's CSeq number, by both of its readings.
fn expect_cseq_number(input: &Input, answer: &mut Answer) -> Result<(), u8> {
    let headers = rules::headers(input.texts[0])?;
    let number = private::parse_cseq_number(&headers);
    let second = prack_validator::extract_cseq_number(&headers);
    assert_eq!(number, second, "the Rust's two readings differ");
    answer.outs[0] = u64::from(number.ok_or(4)?);
    Ok(())
}

/// The port's number of a block.
fn ask_number(input: &Input, answer: &mut Answer, function: fn(&[u8], &mut u32) -> u8) -> u8 {
    lent_as(&mut answer.outs[0], |number| function(input.texts[0], number))
}

/// The value of the first line of that name, as text.
fn text_of<'a>(block: &'a [u8], name: &[u8]) -> &'a str {
    let value = places::first_value(block, name).unwrap_or(0..0);
    std::str::from_utf8(&block[value]).unwrap_or("")
}

/// Reads a number of 33 bits by its low 32 bits.
fn distort_cseq_number(input: &Input, answer: &mut Answer) {
    if answer.number == 4 {
        let token = text_of(input.texts[0], b"CSeq").split_whitespace().next();
        let number = token.and_then(|token| token.parse::<u64>().ok());
        if let Some(number) = number.filter(|number| number >> 33 == 0) {
            answer.number = 0;
            answer.outs[0] = number & 0xffff_ffff;
        }
    }
}

/// The Rust's CSeq method, as a number.
fn expect_cseq_method(input: &Input, answer: &mut Answer) -> Result<(), u8> {
    let headers = rules::headers(input.texts[0])?;
    let method = prack_validator::extract_cseq_method(&headers);
    answer.outs[0] = method_number(&method.ok_or(4)?);
    Ok(())
}

/// Document 01's number of a method that the Rust has read.
fn method_number(method: &Method) -> u64 {
    u64::from(method.number().expect("one of the fourteen"))
}

/// The port's CSeq method.
fn ask_cseq_method(input: &Input, answer: &mut Answer) -> u8 {
    lent_as(&mut answer.outs[0], |method| port::cseq_method(input.texts[0], method))
}

/// Refuses the method where the number is bad.
fn distort_cseq_method(input: &Input, answer: &mut Answer) {
    let token = text_of_valid(input.texts[0], b"CSeq", answer.number);
    let bad = token.is_some_and(|token| token.parse::<u32>().is_err());
    if answer.number == 0 && bad {
        answer.number = 4;
        answer.outs[0] = answer.pattern & 0xff;
    }
}

/// The first token of a header's value, in a block that wasn't refused.
fn text_of_valid<'a>(block: &'a [u8], name: &[u8], number: u8) -> Option<&'a str> {
    if matches!(number, 1 | 2) {
        return None;
    }
    text_of(block, name).split_whitespace().next()
}

/// The Rust's RSeq.
fn expect_rseq(input: &Input, answer: &mut Answer) -> Result<(), u8> {
    let response = response(180, rules::headers(input.texts[0])?).expect("a status");
    let number = prack_validator::extract_rseq(&response);
    answer.outs[0] = u64::from(number.ok_or(4)?);
    Ok(())
}

/// Reads the value's first token.
fn distort_rseq(input: &Input, answer: &mut Answer) {
    let token = text_of_valid(input.texts[0], b"RSeq", answer.number);
    if let Some(Ok(number)) = token.map(str::parse::<u32>) {
        answer.number = 0;
        answer.outs[0] = u64::from(number);
    }
}

/// Asks with a status around the bounds of 1xx, or any.
fn give_with_status(feed: &mut Feed, block: &[u8]) {
    let random = &mut feed.random;
    let status = match random.below(4) {
        0 => random.pick(&[0, 99, 100, 101, 199, 200, 299, 699, 700, 65_535]),
        1 => random.next() & 0xffff,
        _ => 100 + random.below(100) as u64,
    };
    feed.compare(&Input::text(block).and_number(0, status));
}

/// The Rust has no response outside 100 to 699; by its own ranges none of those is reliable.
fn expect_reliable(input: &Input, answer: &mut Answer) -> Result<(), u8> {
    let response = response(input.numbers[0] as u16, rules::headers(input.texts[0])?);
    let reliable = response.is_some_and(|it| prack_validator::is_reliable_provisional(&it));
    answer.outs[0] = u64::from(reliable);
    Ok(())
}

/// The port's yes or no.
fn ask_reliable(input: &Input, answer: &mut Answer) -> u8 {
    let status = input.numbers[0] as u16;
    lent_as(&mut answer.outs[0], |reliable| {
        port::is_reliable_provisional(status, input.texts[0], reliable)
    })
}

/// Says yes to a 100 with RSeq.
fn distort_reliable(input: &Input, answer: &mut Answer) {
    let held = answer.number == 0 && places::first_value(input.texts[0], b"RSeq").is_some();
    if held && input.numbers[0] == 100 {
        answer.outs[0] = 1;
    }
}

const METHODS: Values = Values {
    templates: &METHOD_TEXTS,
    pieces: &["I", "n", "VITE", "ACK", "BY", "E", "PR", "publish", " ", "X"],
    longest: 5,
    write: method_text,
    fillers: b"E \tX",
};

/// `parse_method` is private to its module: it is asked as the second token of a CSeq. A text that is no token, or has
/// a byte over 127, is no method by 01 (the Rust folds letters beyond ASCII too, which no block can hold).
fn expect_method_number(input: &Input, answer: &mut Answer) -> Result<(), u8> {
    let text = input.texts[0];
    rules::limit(&[text])?;
    let token = std::str::from_utf8(text).ok().filter(|text| is_token(text));
    let method = token.and_then(|token| {
        let headers = Headers::of_one("CSeq", &format!("1 {token}"));
        prack_validator::extract_cseq_method(&headers)
    });
    answer.outs[0] = u64::from(method.is_some());
    if let Some(method) = method {
        answer.outs[1] = method_number(&method);
    }
    Ok(())
}

/// Whether the text is one token of ASCII.
fn is_token(text: &str) -> bool {
    !text.is_empty() && text.is_ascii() && !text.contains(char::is_whitespace)
}

/// The port's method number.
fn ask_method_number(input: &Input, answer: &mut Answer) -> u8 {
    let mut found = answer.outs[0] as u8;
    let mut method = answer.outs[1] as u8;
    let number = port::method_number(input.texts[0], &mut found, &mut method);
    answer.outs[0] = u64::from(found);
    answer.outs[1] = u64::from(method);
    number
}

/// Finds no method in small letters.
fn distort_method_number(input: &Input, answer: &mut Answer) {
    let small = input.texts[0].iter().all(u8::is_ascii_lowercase);
    if answer.number == 0 && answer.outs[0] == 1 && small {
        answer.outs[0] = 0;
        answer.outs[1] = answer.pattern & 0xff;
    }
}

/// Every method number with every lent length up to 24.
fn each_method_text(feed: &mut Feed) {
    for _ in 0..2 {
        for method in 0..=255 {
            for lent in 0..=24 {
                feed.compare(&Input::number(method).and_number(1, lent));
            }
        }
    }
}

/// The method's text in the lent output; 28, then 18.
fn expect_method_text(input: &Input, answer: &mut Answer) -> Result<(), u8> {
    let [method, lent, ..] = input.numbers;
    room::lend_empty(answer, lent as usize);
    let method = Method::of_number(method as u8).ok_or(28)?;
    room::leave_text(answer, method.as_str().as_bytes())
}

/// The port's text in the lent output.
fn ask_method_text(input: &Input, answer: &mut Answer) -> u8 {
    let [method, lent, ..] = input.numbers;
    room::lend_empty(answer, lent as usize);
    lent_as(&mut answer.outs[0], |length| {
        port::method_text(method as u8, room::lent(&mut answer.bytes), length)
    })
}

/// Ends the text by a 0, as a C string, where that is past the lent bytes.
fn distort_method_text(input: &Input, answer: &mut Answer) {
    let lent = input.numbers[1];
    if answer.number == 0 && answer.outs[0] == lent {
        answer.bytes[room::GUARD + lent as usize] = 0;
    }
}

const RACKS: Values = Values {
    templates: &["70 8 INVITE", "4294967295\t+1  bye"],
    pieces: &["1", "0", "4294967295", "+", " ", "\t", "INVITE", "bye", "x"],
    longest: 6,
    write: rack_value,
    fillers: b"0 \tx",
};

/// Two numbers and a method, at times one part more or less.
fn rack_value(random: &mut Random) -> Vec<u8> {
    let mut value = Vec::new();
    value.extend(random.pick(&["", "", "", " ", "\t"]).bytes());
    value.extend(number_text(random));
    value.extend(random.pick(&[" ", " ", "\t", "  ", ""]).bytes());
    value.extend(number_text(random));
    value.extend(random.pick(&[" ", " ", "\t ", " 5 ", ""]).bytes());
    value.extend(method_text(random));
    value.extend(random.pick(&["", "", "", " ", " x"]).bytes());
    value
}

/// The Rust's RAck.
fn expect_rack(input: &Input, answer: &mut Answer) -> Result<(), u8> {
    let rack = RAck::parse(rules::value(input.texts[0])?).map_err(|_| 19)?;
    answer.outs[0] = u64::from(rack.rseq);
    answer.outs[1] = u64::from(rack.cseq);
    answer.outs[2] = method_number(&rack.method);
    Ok(())
}

/// The port's RAck.
fn ask_rack(input: &Input, answer: &mut Answer) -> u8 {
    lent_as_rack(&mut answer.outs, |rack| port::parse_rack(input.texts[0], rack))
}

/// Reads the first three of four parts.
fn distort_rack(input: &Input, answer: &mut Answer) {
    let value = rules::value(input.texts[0]).unwrap_or("");
    let parts: Vec<&str> = value.split_whitespace().collect();
    if parts.len() == 4 {
        let first_three = parts[..3].join(" ");
        if expect_rack(&Input::text(first_three.as_bytes()), answer).is_ok() {
            answer.number = 0;
        }
    }
}

/// Numbers of every count of digits with every method number and lent lengths around the result's.
fn each_format_rack(feed: &mut Feed) {
    for _ in 0..feed.calls {
        let random = &mut feed.random;
        let rseq = number_of_digits(random);
        let cseq = number_of_digits(random);
        let method = match random.below(8) {
            0 => random.pick(&[0, 15, 16, 128, 255]),
            _ => 1 + random.below(14) as u64,
        };
        let lent = match random.below(4) {
            0 => random.below(40),
            _ => result_length(rseq, cseq, method) + random.below(4) - 1,
        };
        let input = Input::number(rseq).and_number(1, cseq);
        feed.compare(&input.and_number(2, method).and_number(3, lent as u64));
    }
}

/// A u32 of 1 to 10 digits, or at a bound.
fn number_of_digits(random: &mut Random) -> u64 {
    let power = 10_u64.pow(random.below(10) as u32);
    match random.below(3) {
        0 => random.pick(&[0, 1, 9, 10, 4_294_967_295, 999_999_999, 1_000_000_000]),
        1 => power - random.below(2) as u64,
        _ => (random.next() % (power * 10)) & 0xffff_ffff,
    }
}

/// The length of a formatted RAck.
fn result_length(rseq: u64, cseq: u64, method: u64) -> usize {
    let method = Method::of_number(method as u8);
    let text = method.as_ref().map_or("", Method::as_str);
    format!("{rseq} {cseq} {text}").len()
}

/// The Rust's text in the lent output; 28, then 18.
fn expect_format_rack(input: &Input, answer: &mut Answer) -> Result<(), u8> {
    let [rseq, cseq, method, lent, ..] = input.numbers;
    room::lend_empty(answer, lent as usize);
    let rack = RAck {
        rseq: rseq as u32,
        cseq: cseq as u32,
        method: Method::of_number(method as u8).ok_or(28)?,
    };
    room::leave_text(answer, rack.format().as_bytes())
}

/// The port's text in the lent output.
fn ask_format_rack(input: &Input, answer: &mut Answer) -> u8 {
    let [rseq, cseq, method, lent, ..] = input.numbers;
    room::lend_empty(answer, lent as usize);
    let rack = port::Rack {
        rseq: rseq as u32,
        cseq: cseq as u32,
        method: method as u8,
    };
    lent_as(&mut answer.outs[0], |length| {
        port::format_rack(&rack, room::lent(&mut answer.bytes), length)
    })
}

/// Writes before it measures.
fn distort_format_rack(input: &Input, answer: &mut Answer) {
    if answer.number == 18 {
        let text = input.numbers[0].to_string();
        for (byte, digit) in room::lent(&mut answer.bytes).iter_mut().zip(text.bytes()) {
            *byte = digit;
        }
    }
}
