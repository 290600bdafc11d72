//! SIP URIs to feed, at the bounds of document 01's form and of the estimate.

use crate::random::Random;
use crate::texts::{near, sequence};

/// The estimate's limit, and what it counts beside user and host.
const ESTIMATE_LIMIT: usize = 512;
const OVERHEAD: usize = 10;
const PORT: usize = 6;

/// A URI, readable in most cases.
pub fn uri_text(random: &mut Random) -> Vec<u8> {
    let mut text = scheme(random).as_bytes().to_vec();
    if random.one_in(8) {
        long_parts(random, &mut text);
    } else {
        user(random, &mut text);
        text.extend(random.pick(&HOSTS).bytes());
        port(random, &mut text);
    }
    text.extend(random.pick(&TAILS).bytes());
    text
}

/// A readable URI, short.
pub fn short_uri(random: &mut Random) -> Vec<u8> {
    let user = random.pick(&["", "p@", "q7@", "a;b@"]);
    let tail = random.pick(&["", "", ";lr", ":5060", "?x"]);
    format!(
        "{}{user}{}{tail}",
        random.pick(&["sip:", "sips:", "SIP:"]),
        random.pick(&["h", "a.b", "[::1]"])
    )
    .into_bytes()
}

/// A URI whose estimate is at the limit: up to two below it or above it.
pub fn long_uri(random: &mut Random) -> Vec<u8> {
    let mut text = random.pick(&["sip:", "sips:"]).as_bytes().to_vec();
    long_parts(random, &mut text);
    text
}

const HOSTS: [&str; 16] = [
    "h", "h", "a.b", "10.0.0.1", "x-1", "[::1]", "[a.F:0]", "[]", "[::1", "[g]", "", "h_", "h@g", "[1]x", "-", ".",
];
const TAILS: [&str; 12] = ["", "", "", ";x", ";x=1;y", "?h", "?h=@b", ";z@y", "x", " ", ">", ":"];

/// A scheme, mostly one of the two.
fn scheme(random: &mut Random) -> &'static str {
    const SCHEMES: [&str; 10] = [
        "sip:", "sip:", "sip:", "sips:", "SIP:", "SiPs:", "sip", "tel:", "sipss:", "",
    ];
    random.pick(&SCHEMES)
}

/// A user at times, of bytes that mean something elsewhere.
fn user(random: &mut Random, text: &mut Vec<u8>) {
    const PIECES: [&str; 10] = ["a", "B", "7", ".", ";", "?", ":", "[", "%41", "="];
    if random.one_in(2) {
        text.extend(sequence(random, &PIECES, 5));
        text.push(b'@');
    }
}

/// A port at times: 0 to 6 digits, around 65,535 or with leading zeros.
fn port(random: &mut Random, text: &mut Vec<u8>) {
    const PORTS: [&str; 12] = [
        "5060", "0", "00080", "65535", "65536", "99999", "", "1", "065535", "100000", "+80", "8x",
    ];
    match random.below(4) {
        0 => text.extend(format!(":{}", random.pick(&PORTS)).bytes()),
        1 => text.extend(format!(":{}", random.below(70_000)).bytes()),
        _ => {}
    }
}

/// User, host and port such that the estimate is near its limit.
fn long_parts(random: &mut Random, text: &mut Vec<u8>) {
    let with_port = random.one_in(2);
    let fixed = OVERHEAD + if with_port { PORT } else { 0 };
    let both = near(random, ESTIMATE_LIMIT) - fixed;
    let user = random.pick(&[0, 1, both / 2, both - 1]);
    if user > 0 {
        text.extend(std::iter::repeat_n(b'u', user));
        text.push(b'@');
    }
    let host = both - user;
    if host > 2 && random.one_in(4) {
        text.push(b'[');
        text.extend(std::iter::repeat_n(b'f', host - 2));
        text.push(b']');
    } else {
        text.extend(std::iter::repeat_n(b'h', host));
    }
    if with_port {
        text.extend(random.pick(&[":5060", ":1", ":65535"]).bytes());
    }
}
