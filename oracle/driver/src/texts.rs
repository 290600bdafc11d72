//! Texts and values to feed: good ones with every byte in every place, every short sequence of pieces, random ones,
//! ones of a length at a boundary, damaged ones.

use crate::random::Random;
use crate::rules::LONGEST;
use crate::run::Feed;

/// How an operation's values are made.
pub struct Values {
    /// Good values; each is fed with every byte in every place.
    pub templates: &'static [&'static str],
    /// The pieces of which every sequence up to `longest` is fed.
    pub pieces: &'static [&'static str],
    pub longest: usize,
    /// A random value.
    pub write: fn(&mut Random) -> Vec<u8>,
    /// The bytes with which a value is stretched to the limit.
    pub fillers: &'static [u8],
}

/// Feeds the templates with every byte in every place, every short value, then random ones, some stretched to the
/// limit, some damaged.
pub fn each_value(feed: &mut Feed, values: &Values, give: &dyn Fn(&mut Feed, &[u8])) {
    each_replacement(values.templates, &mut |value| give(feed, value));
    each_sequence(values.pieces, values.longest, &mut |value| give(feed, value));
    for _ in 0..feed.calls {
        let random = &mut feed.random;
        let mut value = (values.write)(random);
        if random.one_in(12) {
            let length = near(random, LONGEST);
            let filler = random.pick(values.fillers);
            stretch(random, &mut value, length, filler);
        }
        if random.one_in(4) {
            damage(random, &mut value);
        }
        give(feed, &value);
    }
}

/// Every text that a template becomes by putting any byte in any one place.
pub fn each_replacement(templates: &[&str], give: &mut dyn FnMut(&[u8])) {
    for template in templates {
        let mut text = template.as_bytes().to_vec();
        for place in 0..text.len() {
            let held = text[place];
            for byte in 0..=255 {
                text[place] = byte;
                give(&text);
            }
            text[place] = held;
        }
    }
}

/// Every sequence of at most `longest` pieces, shortest first.
pub fn each_sequence(pieces: &[&str], longest: usize, give: &mut dyn FnMut(&[u8])) {
    let mut text = Vec::new();
    for length in 0..=longest {
        let mut digits = vec![0; length];
        loop {
            text.clear();
            for digit in &digits {
                text.extend_from_slice(pieces[*digit].as_bytes());
            }
            give(&text);
            if !count_up(&mut digits, pieces.len()) {
                break;
            }
        }
    }
}

/// Every list of choices, each below its own count.
pub fn each_choice(counts: &[usize], give: &mut dyn FnMut(&[usize])) {
    let lists: usize = counts.iter().product();
    for list in 0..lists {
        let mut rest = list;
        let choice = counts.iter().map(|count| {
            let digit = rest % count;
            rest /= count;
            digit
        });
        give(&choice.collect::<Vec<_>>());
    }
}

/// The next number of these digits, or false after the last.
fn count_up(digits: &mut [usize], base: usize) -> bool {
    for digit in digits.iter_mut().rev() {
        *digit += 1;
        if *digit < base {
            return true;
        }
        *digit = 0;
    }
    false
}

/// A random sequence of at most `most` pieces.
pub fn sequence(random: &mut Random, pieces: &[&str], most: usize) -> Vec<u8> {
    let length = random.below(most + 1);
    let mut text = Vec::new();
    for _ in 0..length {
        text.extend_from_slice(random.pick(pieces).as_bytes());
    }
    text
}

/// A length at a boundary: up to two below it or above it.
pub fn near(random: &mut Random, boundary: usize) -> usize {
    (boundary + random.below(5)).saturating_sub(2)
}

/// Brings a text to `length` bytes by a run of one byte at a random place; a longer text stays.
pub fn stretch(random: &mut Random, text: &mut Vec<u8>, length: usize, filler: u8) {
    let missing = length.saturating_sub(text.len());
    let place = random.below(text.len() + 1);
    text.splice(place..place, std::iter::repeat_n(filler, missing));
}

/// Bytes at the bounds of what a value, a name or a URI may hold.
const ODD: [u8; 14] = [0, 8, 9, 10, 11, 13, 31, 32, 33, 126, 127, 128, 169, 255];

/// Damages a text once: a bit flipped, a byte replaced, put in or lost, the end cut off, a CR or an LF lost.
pub fn damage(random: &mut Random, text: &mut Vec<u8>) {
    let place = random.below(text.len() + 1);
    let odd = random.pick(&ODD);
    match random.below(6) {
        0 if place < text.len() => text[place] ^= 1 << random.below(8),
        1 if place < text.len() => text[place] = odd,
        2 if place < text.len() => drop(text.remove(place)),
        3 => text.truncate(place),
        4 => lose_line_end(random, text),
        _ => text.insert(place, odd),
    }
}

/// Takes one CR or LF out, if there is any.
fn lose_line_end(random: &mut Random, text: &mut Vec<u8>) {
    let is_end = |place: &usize| matches!(text[*place], b'\r' | b'\n');
    let ends: Vec<usize> = (0..text.len()).filter(is_end).collect();
    if !ends.is_empty() {
        text.remove(random.pick(&ends));
    }
}

/// The text with the case of each letter chosen anew, or as it is.
pub fn recased(random: &mut Random, text: &str) -> Vec<u8> {
    let mut bytes = text.as_bytes().to_vec();
    match random.below(4) {
        0 => bytes.make_ascii_lowercase(),
        1 => bytes.make_ascii_uppercase(),
        2 => {
            for byte in bytes.iter_mut().filter(|byte| byte.is_ascii_alphabetic()) {
                *byte ^= if random.one_in(2) { 0x20 } else { 0 };
            }
        }
        _ => {}
    }
    bytes
}

/// What stands before the text of a tag in From and To values that hold no semicolon, and in some that hold one in quotes or in
/// angle brackets. In the last two what holds it stays open.
const FRONTS: [&str; 5] = ["<sip:a@b>;tag=", "\"n\" <sip:a>; TAG=", "tag=", ";\ttag=", "x;y;Tag="];
pub const HELD_FRONTS: [&str; 10] = [
    "\"n;tag=q\" <sip:a>;tag=",
    "<sip:a;lr>;tag=",
    "\"\\\";tag=q\" <sip:a>; TAG=",
    "\"a\\\\;\";tag=",
    "\"<;\";tag=",
    "<\"a;b>;tag=",
    "<<a;b>;tag=",
    "\"n;tag=q\" <sip:a;tag=r>;x;tag=",
    "\"n\\;tag=",
    "<sip:a;tag=",
];

/// The front of a From or To value, up to the text of its tag; one in eight holds a semicolon.
pub fn front_of_tag(random: &mut Random) -> &'static str {
    match random.one_in(8) {
        true => random.pick(&HELD_FRONTS),
        false => random.pick(&FRONTS),
    }
}

/// A header's name in either of its spellings, where it has two, the case of its letters chosen anew.
pub fn spelled(random: &mut Random, name: &str) -> Vec<u8> {
    let short = match name {
        "Call-ID" => "i",
        "From" => "f",
        "To" => "t",
        "Contact" => "m",
        "Session-Expires" => "x",
        _ => name,
    };
    let spelling = if random.one_in(3) { short } else { name };
    recased(random, spelling)
}

/// Numbers around the bounds of the fields, as digits; some fit no width.
const NUMBERS: [&str; 22] = [
    "0",
    "1",
    "7",
    "10",
    "89",
    "90",
    "86400",
    "86401",
    "65535",
    "65536",
    "1000000000",
    "2147483647",
    "2147483648",
    "4294967294",
    "4294967295",
    "4294967296",
    "4294967305",
    "9999999999",
    "42949672950",
    "18446744073709551615",
    "18446744073709551616",
    "340282366920938463463374607431768211456",
];

/// A number as text: a sign at times, leading zeros (thousands at times), digits at a bound, a stray byte at times.
pub fn number_text(random: &mut Random) -> Vec<u8> {
    let mut text = Vec::new();
    match random.below(16) {
        0 | 1 => text.push(b'+'),
        2 => text.push(b'-'),
        3 => text.extend(b"++"),
        _ => {}
    }
    let zeros = match random.below(24) {
        0 => 1000 + random.below(6000),
        1..4 => 1 + random.below(12),
        _ => 0,
    };
    text.extend(std::iter::repeat_n(b'0', zeros));
    match random.below(4) {
        0 => text.extend((random.next() as u32).to_string().bytes()),
        1 => text.extend((random.next() >> random.below(64)).to_string().bytes()),
        _ => text.extend(random.pick(&NUMBERS).bytes()),
    }
    if random.one_in(12) {
        text.push(random.pick(b"x.+- \t0\"/:"));
    }
    text
}

/// The fourteen methods and some texts that are none.
pub const METHOD_TEXTS: [&str; 20] = [
    "INVITE",
    "ACK",
    "BYE",
    "CANCEL",
    "REGISTER",
    "OPTIONS",
    "INFO",
    "UPDATE",
    "MESSAGE",
    "PRACK",
    "REFER",
    "SUBSCRIBE",
    "NOTIFY",
    "PUBLISH",
    "INVIT",
    "INVITED",
    "AC",
    "X",
    "PUBLISHE",
    "UPDATES",
];

/// A method's text in some letter case, or one that is none.
pub fn method_text(random: &mut Random) -> Vec<u8> {
    let text = random.pick(&METHOD_TEXTS);
    recased(random, text)
}
