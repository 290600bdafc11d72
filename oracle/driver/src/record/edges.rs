//! The limits of document 01 as they are seen in a call: lengths of texts, numbers given, numbers answered, numbers in a text.

use super::Key;
use crate::answer::{Answer, Input};
use crate::operations;
use crate::run::{Feed, Operation};

/// Lengths on both sides of a limit.
const LENGTHS: [usize; 7] = [0, 128, 129, 256, 257, 8192, 8193];

const SECOND: u64 = 1_000_000_000;

/// Numbers on both sides of a limit.
const NUMBERS: [u64; 57] = [
    0,
    1,
    14,
    15,
    49,
    50,
    51,
    89,
    90,
    91,
    99,
    100,
    199,
    200,
    255,
    256,
    299,
    300,
    399,
    400,
    499,
    500,
    512,
    513,
    599,
    600,
    699,
    700,
    65_535,
    65_536,
    86_400,
    86_401,
    2_147_483_647,
    2_147_483_648,
    4_294_967_294,
    4_294_967_295,
    4_294_967_296,
    32 * SECOND - 1,
    32 * SECOND,
    32 * SECOND + 1,
    60 * SECOND - 1,
    60 * SECOND,
    60 * SECOND + 1,
    90 * SECOND - 1,
    90 * SECOND,
    90 * SECOND + 1,
    96 * SECOND - 1,
    96 * SECOND,
    96 * SECOND + 1,
    300 * SECOND,
    1800 * SECOND,
    86_400 * SECOND,
    86_400 * SECOND + 1,
    1 << 63,
    u64::MAX - 2,
    u64::MAX - 1,
    u64::MAX,
];

/// The limits that a call is at.
pub fn of_call(name: &'static str, input: &Input, expected: &Answer, row: u8) -> Vec<Key> {
    let mut keys = Vec::new();
    for (index, text) in input.texts.iter().enumerate() {
        if LENGTHS.contains(&text.len()) {
            keys.push(Key::Edge(name, format!("text {index}"), text.len() as u64));
        }
        if text.len() < 120 {
            keys.extend(numbers_in(text).map(|number| Key::Edge(name, format!("in text, {row}"), number)));
        }
    }
    for (index, number) in input.numbers.iter().enumerate() {
        if NUMBERS.contains(number) {
            keys.push(Key::Edge(name, format!("number {index}"), *number));
        }
    }
    for (index, out) in expected.outs.iter().enumerate() {
        if row == 0 && NUMBERS[4..].contains(out) {
            keys.push(Key::Edge(name, format!("out {index}"), *out));
        }
    }
    keys
}

/// The numbers of two digits or more at a limit that stand in a text.
fn numbers_in(text: &[u8]) -> impl Iterator<Item = u64> + '_ {
    let words = text.split(|byte| !byte.is_ascii_digit()).filter(|word| word.len() > 1);
    let numbers = words.filter_map(|word| std::str::from_utf8(word).ok()?.parse().ok());
    numbers.filter(|number| NUMBERS.contains(number))
}

/// Calls at limits that chance gives seldom.
pub fn each_call() {
    uris_and_routes();
    identifiers();
    numbers();
    intervals();
    contests();
    test_sheet();
    spellings();
    for method in 0..=15 {
        feed("method_text", &[], &[method, 12]);
    }
    for length in [8192, 8193] {
        longest_texts(length);
        longest_blocks(length);
    }
}

/// Estimates, numbers of routes and ports.
fn uris_and_routes() {
    let routes = |many: usize| format!("Record-Route:{}\r\n", vec!["<sip:r>"; many].join(","));
    let long = |many: usize| format!("sip:{}", "h".repeat(many));
    for estimate in [512, 513] {
        feed("uri_estimate", &[&long(estimate - 10)], &[]);
        let with_port = format!("sip:u@{}:5", "h".repeat(estimate - 17));
        feed("uri_estimate", &[&with_port], &[]);
        let route = format!("Record-Route:<{}>\r\n", long(estimate - 10));
        feed("route_count", &[&route], &[]);
        feed("route", &[&route], &[0, 0]);
    }
    for many in [49, 50, 51] {
        feed("route_count", &[&routes(many)], &[]);
        for (reversed, index) in [(0, 0), (1, 0), (0, 49), (1, 49), (0, 50)] {
            feed("route", &[&routes(many)], &[reversed, index]);
        }
    }
    for port in ["1", "65535", "65536", "99999", "100000", "00001"] {
        feed("sip_uri", &[&format!("sip:u@h:{port}")], &[]);
        feed("sip_uri", &[&format!("sips:[::1]:{port};x")], &[]);
    }
}

/// Lengths of identifier parts.
fn identifiers() {
    for lengths in [[256, 128, 128], [257, 128, 128], [256, 129, 128], [256, 128, 129]] {
        let [call_id, local, remote] = lengths;
        let texts = ["c".repeat(call_id), "l".repeat(local), "r".repeat(remote)];
        feed("dialog_id_new", &[&texts[0], &texts[1], &texts[2]], &[]);
    }
}

/// Numbers in texts.
const IN_TEXTS: [&str; 9] = [
    "0",
    "1",
    "2147483647",
    "2147483648",
    "4294967295",
    "4294967296",
    "+5",
    "-0",
    "00007",
];

/// Every reading of a number from a text.
fn numbers() {
    for number in IN_TEXTS {
        feed("cseq_number", &[&format!("CSeq: {number} INVITE\r\n")], &[]);
        feed("rseq", &[&format!("RSeq: {number}\r\n")], &[]);
        feed("parse_rack", &[&format!("{number} 1 INVITE")], &[]);
        feed("parse_rack", &[&format!("1 {number} INVITE")], &[]);
        feed("parse_session_expires", &[number], &[]);
        let line = format!("Session-Expires: {number};refresher=uac\r\n");
        feed("session_expires", &[&line], &[]);
    }
}

/// Intervals, a nanosecond before and after.
const INTERVALS: [u64; 6] = [
    89 * SECOND,
    90 * SECOND - 1,
    90 * SECOND,
    119 * SECOND,
    120 * SECOND - 1,
    120 * SECOND,
];

/// Refresh times, validation and negotiation.
fn intervals() {
    for (seconds, elapsed) in [(90, 60), (91, 60), (0, 0), (4_294_967_295, 2_863_311_530)] {
        let elapsed = elapsed * SECOND;
        for time in [elapsed.saturating_sub(1), elapsed, elapsed + 1] {
            feed("needs_refresh", &[], &[1, seconds, time]);
            feed("needs_refresh", &[], &[0, seconds, time]);
        }
    }
    for interval in INTERVALS {
        feed("validate_session_expires", &[], &[interval, 0, 0]);
        feed("validate_session_expires", &[], &[interval, 1, 120 * SECOND]);
        let given = [interval, 90 * SECOND, 1, 120 * SECOND, 0, 0];
        feed("negotiate_session_expires", &[], &given);
    }
}

/// Offers on both sides of each bound, in seconds.
fn contests() {
    for min_se in [89, 90, 91, 86_399, 86_400, 86_401] {
        for requested in [min_se - 1, min_se, min_se + 1, 1800, 86_400, 86_401] {
            feed("interval_contest", &[], &[requested, min_se]);
        }
    }
}

/// Lines of the test sheet.
fn test_sheet() {
    for requested in [1800 * SECOND, 100 * SECOND] {
        let given = [requested, 90 * SECOND, 1, 120 * SECOND, 1, 60 * SECOND];
        feed("negotiate_session_expires", &[], &given);
    }
    feed("non_refresher_expiry", &[], &[300 * SECOND]);
    for text in ["uac", "uas", "Uas", ""] {
        for is_uac in [0, 1] {
            feed("determine_refresher_role", &[text], &[1, is_uac]);
        }
    }
    for value in TAGS {
        feed("extract_tag", &[value], &[]);
    }
    feed("route_count", &["Record-Route: \"a<b\" <sip:p@h>, <sip:q@h>\r\n"], &[]);
}

/// Each of the five names with two spellings by the other one, both in one block, and a letter that is no spelling: change request 1.
fn spellings() {
    for (short, full) in SPELLINGS {
        for (line, asked) in [(short, full), (full, short)] {
            let block = format!("{line}:1\r\n");
            feed("header", &[&block, asked], &[]);
            let both = format!("{line}:1\r\n{asked}:2\r\n");
            feed("header", &[&both, full], &[]);
            feed("next_header, to the end", &[&both, short], &[]);
        }
    }
    feed("header", &["v:1\r\n", "Via"], &[]);
    for name in ["from_request", "from_response_uac", "from_response_uas"] {
        feed(name, &["f:;tag=x\r\nT:;tag=y\r\ni:c\r\nCall-ID:d\r\n"], &[]);
    }
    feed("contact", &["m:*\r\nContact:<sip:o>\r\n"], &[]);
    feed("session_expires", &["X:90\r\nSession-Expires:91\r\n"], &[]);
}

/// The names with two spellings: the short one, and the full one.
const SPELLINGS: [(&str, &str); 5] = [
    ("i", "Call-ID"),
    ("f", "From"),
    ("t", "To"),
    ("m", "Contact"),
    ("x", "Session-Expires"),
];

/// Values with semicolons in quotes or in brackets, or with what only looks like it: change request 3. The first is a line of the
/// test sheet.
const TAGS: [&str; 12] = [
    "\"a;tag=x\" <sip:r@h>;tag=y",
    "<sip:r@h;lr>;tag=x",
    "\"<\";tag=a",
    "<<a>;tag=b>",
    "<\"a>;tag=b",
    "\"a;tag=x",
    "<a;tag=x",
    "\\\";tag=a",
    "<\\>;tag=a",
    "\"\\\";tag=a\";tag=b",
    "\"\\\\\";tag=a",
    ";tag=\"a;b\"",
];

/// Readings of a value.
const VALUES: [&str; 5] = [
    "parse_uri_from_header",
    "extract_tag",
    "parse_session_expires",
    "parse_rack",
    "next_header_value, to the end",
];

/// Texts of a length.
fn longest_texts(length: usize) {
    let blank = " ".repeat(length);
    for name in VALUES {
        feed(name, &[&blank], &[]);
    }
    let uri = format!("sip:h;{}", "x".repeat(length - 6));
    feed("sip_uri", &[&uri], &[]);
    feed("uri_estimate", &[&uri], &[]);
    for texts in [[length, 1, 1], [1, length, 1], [1, 1, length]] {
        let texts = texts.map(|length| "x".repeat(length));
        feed("dialog_id_new", &[&texts[0], &texts[1], &texts[2]], &[]);
    }
    feed("method_number", &[&"A".repeat(length)], &[]);
    feed("determine_refresher_role", &[&"u".repeat(length)], &[1, 1]);
}

/// Blocks of a length, and names.
fn longest_blocks(length: usize) {
    let block = |line: &str| format!("{line}\r\nQ:{}\r\n", "x".repeat(length - line.len() - 6));
    for (name, line) in BLOCKS {
        feed(name, &[&block(line)], &[]);
    }
    feed("is_reliable_provisional", &[&block("Require:100rel\r\nRSeq:1")], &[180]);
    for name in ["header", "next_header", "next_header, to the end"] {
        feed(name, &[&block("a:1"), "a"], &[]);
        feed(name, &["a:1\r\n", &"a".repeat(length)], &[]);
    }
}

/// Readings of a block, with a line for each.
const BLOCKS: [(&str, &str); 10] = [
    ("check_block", "a:1"),
    ("from_request", "Call-ID:c\r\nFrom:;tag=x\r\nTo:;tag=y"),
    ("from_response_uac", "Call-ID:c\r\nFrom:;tag=x\r\nTo:;tag=y"),
    ("from_response_uas", "Call-ID:c\r\nFrom:;tag=x\r\nTo:;tag=y"),
    ("contact", "Contact:<sip:h>"),
    ("route_count", "Record-Route:<sip:h>"),
    ("session_expires", "Session-Expires:90"),
    ("cseq_number", "CSeq:1 A"),
    ("cseq_method", "CSeq:1 ACK"),
    ("rseq", "RSeq:1"),
];

/// Compares one call of an operation, so that it is recorded.
fn feed(name: &str, texts: &[&str], numbers: &[u64]) {
    let all = operations::all();
    let of_name: Option<&&'static Operation> = all.iter().find(|operation| operation.name == name);
    let mut input = Input::default();
    for (index, text) in texts.iter().enumerate() {
        input.texts[index] = text.as_bytes();
    }
    input.numbers[..numbers.len()].copy_from_slice(numbers);
    Feed::new(of_name.expect("an operation of that name"), 0, 1, None).compare(&input);
}
