//! Calls to feed: creations, requests and responses that are mostly good, with one or two odd parts or all of them odd, and
//! lent bytes around the size of the result.

use super::room::{IMAGE, USED};
use crate::answer::Input;
use crate::blocks::{fill, shuffle};
use crate::operations::values::{bracketed, full_route_block, route_value, session_value};
use crate::random::Random;
use crate::rules::LONGEST;
use crate::texts::{damage, front_of_tag, method_text, near, number_text, recased, spelled, HELD_FRONTS};
use crate::uris::{long_uri, short_uri, uri_text};
use port::Settings;
use sip_dialog::DialogId;

/// The arguments of one call.
#[derive(Default)]
pub struct Call {
    pub texts: [Vec<u8>; 5],
    pub numbers: [u64; 6],
    pub settings: Settings,
}

impl Call {
    /// A reading of an image.
    pub fn of_image(image: &[u8]) -> Call {
        let mut call = Call::default();
        call.texts[IMAGE] = image.to_vec();
        call
    }

    /// A change of an image, all of whose bytes are used.
    pub fn on_image(image: &[u8]) -> Call {
        let mut call = Call::of_image(image);
        call.numbers[USED] = image.len() as u64;
        call
    }

    /// The arguments, lent.
    pub fn input(&self) -> Input<'_> {
        Input {
            texts: std::array::from_fn(|index| self.texts[index].as_slice()),
            numbers: self.numbers,
            settings: self.settings,
        }
    }
}

/// Which parts of a call are odd: mostly none, one or two, at times all.
struct Odd(u32);

impl Odd {
    /// Chosen among `parts` parts.
    fn new(random: &mut Random, parts: usize) -> Odd {
        let one = |random: &mut Random| 1 << random.below(parts);
        Odd(match random.below(16) {
            0..8 => 0,
            8..12 => one(random),
            12..14 => one(random) | one(random),
            14 => one(random) | one(random) | one(random),
            _ => u32::MAX,
        })
    }

    /// Whether this part is odd.
    fn has(&self, part: u32) -> bool {
        self.0 & (1 << part) != 0
    }
}

/// Lent bytes for a result: as large, one byte less or more, none, or more than enough.
pub fn lent_for(random: &mut Random, result: usize) -> usize {
    match random.below(16) {
        0..4 => result,
        4..7 => result.saturating_sub(1),
        7..9 => result + 1,
        9 if random.one_in(2) => random.below(result + 1),
        10 if random.one_in(4) => 0,
        _ => result + random.below(300),
    }
}

/// The arguments of a creation, but for the size of its lent output.
pub fn creation(random: &mut Random, is_uac: bool) -> Call {
    let odd = Odd::new(random, 11);
    let mut request = vec![line(random, "CSeq", &first_cseq)];
    let mut response = Vec::new();
    if odd.has(0) {
        request = odd_cseq(random);
    }
    identifier_lines(random, &mut response, odd.has(1));
    session_lines(random, &mut response, odd.has(2));
    let (own, other) = if is_uac {
        (&mut response, &mut request)
    } else {
        (&mut request, &mut response)
    };
    target_lines(random, own, odd.has(3), odd.has(4));
    if random.one_in(2) {
        target_lines(random, other, false, false);
    }
    if random.one_in(2) {
        identifier_lines(random, &mut request, false);
        session_lines(random, &mut request, false);
        response.push(line(random, "CSeq", &first_cseq));
    }
    let mut call = Call::default();
    call.texts[0] = method(random, odd.has(5));
    call.texts[1] = block(random, request, odd.has(6));
    call.texts[2] = block(random, response, odd.has(7));
    call.texts[3] = given_uri(random, odd.has(8));
    call.texts[4] = given_uri(random, odd.has(9));
    call.numbers[0] = u64::from(if odd.has(10) {
        any_status(random)
    } else {
        random.pick(&[100, 101, 180, 183, 199, 200, 200, 202, 299])
    });
    call
}

/// Any status.
pub fn any_status(random: &mut Random) -> u16 {
    match random.below(8) {
        0 => random.next() as u16,
        1 => random.pick(&[0, 99, 600, 699, 700, u16::MAX]),
        2..5 => random.pick(&[199, 200, 299, 300]),
        _ => random.pick(&[100, 180, 183, 200, 202, 404]),
    }
}

/// Seconds at the bounds, of 32 bits and above them.
pub fn any_seconds(random: &mut Random) -> u64 {
    const LARGE: [u64; 7] = [
        1 << 32,
        (1 << 32) + 89,
        (1 << 32) + 90,
        (1 << 32) - 1,
        1 << 63,
        u64::MAX,
        u64::MAX - 1,
    ];
    match random.below(8) {
        0 => random.next() >> random.below(64),
        1 => random.pick(&LARGE),
        2 => random.pick(&[0, 1, 88, 89]),
        3 => random.pick(&[86_401, 86_402, 100_000]),
        4 => random.pick(&[90, 86_400]),
        _ => 90 + random.below(86_311) as u64,
    }
}

/// The method and block of a request on a record with that remote number, at a site of that CSeq jump.
pub fn request(random: &mut Random, remote: u32, jump: u32) -> (Vec<u8>, Vec<u8>) {
    let odd = Odd::new(random, 5);
    let (method, mut lines) = request_lines(random, [remote, jump], &odd);
    noise(random, &mut lines);
    (method, block(random, lines, odd.has(4)))
}

/// The same for a request that names the record as its peer does, or nearly.
pub fn request_naming(random: &mut Random, id: &DialogId, remote: u32, jump: u32) -> (Vec<u8>, Vec<u8>) {
    let odd = Odd::new(random, 6);
    let (method, mut lines) = request_lines(random, [remote, jump], &odd);
    if odd.has(5) {
        identifier_lines(random, &mut lines, true);
    } else {
        named_lines(random, &mut lines, id);
    }
    noise_but_identifiers(random, &mut lines);
    (method, block(random, lines, odd.has(4)))
}

/// The block of a PRACK that names the record, with this CSeq number and this RAck.
pub fn prack_naming(random: &mut Random, id: &DialogId, number: u32, rack: &[u8]) -> Vec<u8> {
    let mut lines = vec![line(random, "RAck", &|_: &mut Random| rack.to_vec())];
    lines.push(line(random, "CSeq", &|_: &mut Random| format!("{number} PRACK").into()));
    named_lines(random, &mut lines, id);
    noise_but_identifiers(random, &mut lines);
    let odd = random.one_in(16);
    block(random, lines, odd)
}

/// The block of a request that names the record, with this CSeq number.
pub fn named(random: &mut Random, id: &DialogId, number: u32) -> Vec<u8> {
    let mut lines = vec![line(random, "CSeq", &|_: &mut Random| format!("{number} BYE").into())];
    named_lines(random, &mut lines, id);
    block(random, lines, false)
}

/// A request's method, and its CSeq, Contact and Record-Route lines.
fn request_lines(random: &mut Random, [remote, jump]: [u32; 2], odd: &Odd) -> (Vec<u8>, Vec<Vec<u8>>) {
    let is_ack = random.one_in(3);
    let method = match is_ack {
        true if random.one_in(12) => recased(random, "ACK"),
        true => b"ACK".to_vec(),
        false => method(random, odd.has(0)),
    };
    let number = if is_ack && !random.one_in(6) {
        u64::from(remote)
    } else {
        next_number(random, remote, jump)
    };
    let mut lines = vec![line(random, "CSeq", &|_: &mut Random| {
        format!("{number} INVITE").into_bytes()
    })];
    if odd.has(1) {
        lines = odd_cseq(random);
    }
    target_lines(random, &mut lines, odd.has(2), odd.has(3));
    (method, lines)
}

/// A CSeq number for a request: around the remote number, around it and the jump, and around the bounds.
fn next_number(random: &mut Random, remote: u32, jump: u32) -> u64 {
    let [remote, jump] = [remote, jump].map(u64::from);
    match random.below(8) {
        0 => remote + jump + random.pick(&[0, 1, 2, 3]) - 1,
        1 => (remote + random.below(3) as u64).saturating_sub(1),
        2 => random.pick(&[0, 1, 2, (1 << 31) - 1, 1 << 31, (1 << 32) - 1, 1 << 32]),
        3 => random.next() >> (32 + random.below(32)),
        4 => remote + 1 + random.below(jump as usize) as u64,
        _ => remote + 1,
    }
}

/// The block of a response on a record.
pub fn response(random: &mut Random) -> Vec<u8> {
    let odd = Odd::new(random, 4);
    let mut lines = Vec::new();
    target_lines(random, &mut lines, odd.has(0), odd.has(1));
    session_lines(random, &mut lines, odd.has(2));
    noise(random, &mut lines);
    block(random, lines, odd.has(3))
}

/// The block of a request whose identifier is that of a record as its peer names it, or nearly.
pub fn named_request(random: &mut Random, id: Option<&DialogId>) -> Vec<u8> {
    let odd = Odd::new(random, 3);
    let mut lines = Vec::new();
    match id {
        Some(id) if !odd.has(0) => named_lines(random, &mut lines, id),
        _ => identifier_lines(random, &mut lines, odd.has(1)),
    }
    noise_but_identifiers(random, &mut lines);
    block(random, lines, odd.has(2))
}

/// Call-ID, From and To of the peer's request; at times the tags are swapped, a line is absent, letters have another case, or a
/// semicolon is held before the tag.
fn named_lines(random: &mut Random, lines: &mut Vec<Vec<u8>>, id: &DialogId) {
    let (mut from, mut to) = (id.remote_tag(), id.local_tag());
    if random.one_in(12) {
        (from, to) = (to, from);
    }
    let absent = random.below(36);
    let front = |random: &mut Random| match random.one_in(12) {
        true => random.pick(&HELD_FRONTS),
        false => ";tag=",
    };
    let parts = [
        ("Call-ID", "", id.call_id()),
        ("From", front(random), from),
        ("To", front(random), to),
    ];
    for (index, (name, before, text)) in parts.into_iter().enumerate() {
        let recase = random.one_in(24);
        let value = |random: &mut Random| {
            let text = if recase { recased(random, text) } else { text.into() };
            [before.as_bytes(), &text].concat()
        };
        if index != absent {
            lines.push(line(random, name, &value));
        }
    }
}

/// A method: one of the fourteen or any text, at times at the limit, empty, or of any bytes.
fn method(random: &mut Random, odd: bool) -> Vec<u8> {
    match random.below(6) {
        0 | 1 if odd => vec![b'A'; near(random, LONGEST)],
        2 if odd => Vec::new(),
        3 if odd => (0..random.below(9)).map(|_| random.next() as u8).collect(),
        4 => method_text(random),
        _ => random.pick(&["INVITE", "BYE", "UPDATE"]).into(),
    }
}

/// A given URI: short, at times at the estimate's limit, at the length's limit, damaged, or of any form.
fn given_uri(random: &mut Random, odd: bool) -> Vec<u8> {
    match random.below(6) {
        0 | 1 if odd => long_uri(random),
        2 | 3 if odd => {
            let mut text = short_uri(random);
            text.push(b';');
            let length = near(random, LONGEST);
            text.resize(length, b'x');
            text
        }
        4 if odd => uri_text(random),
        5 if odd => {
            let mut text = short_uri(random);
            damage(random, &mut text);
            text
        }
        _ => short_uri(random),
    }
}

/// A good CSeq value.
fn first_cseq(random: &mut Random) -> Vec<u8> {
    let number = match random.below(4) {
        0 => random.pick(&[1, 2, (1 << 31) - 1, (1 << 31) - 2]),
        1 => 1 + (random.next() >> (33 + random.below(31))),
        _ => 1 + random.below(1000) as u64,
    };
    let sign = random.pick(&["", "", "", "+", "00"]);
    format!("{sign}{number} INVITE").into_bytes()
}

/// CSeq lines at the bounds, of any form, twice or not at all.
fn odd_cseq(random: &mut Random) -> Vec<Vec<u8>> {
    const NUMBERS: [&str; 9] = [
        "0",
        "00",
        "1",
        "2147483647",
        "2147483648",
        "4294967295",
        "4294967296",
        "-0",
        "",
    ];
    match random.below(8) {
        0 => Vec::new(),
        1 => vec![line(random, "CSeq", &number_text), line(random, "CSeq", &first_cseq)],
        2 => vec![line(random, "CSeq", &number_text)],
        _ => vec![line(random, "CSeq", &|random: &mut Random| {
            random.pick(&NUMBERS).into()
        })],
    }
}

/// Call-ID, From and To with their tags; odd ones lack a line or a tag, or are of any form.
fn identifier_lines(random: &mut Random, lines: &mut Vec<Vec<u8>>, odd: bool) {
    let call_id = |random: &mut Random| match random.below(24) {
        0 => vec![b'c'; near(random, 256)],
        _ => random.pick(&["c1", "c2@h", "a b", "", "c1;tag=q"]).into(),
    };
    lines.push(line(random, "Call-ID", &call_id));
    for name in ["From", "To"] {
        lines.push(line(random, name, &tagged));
        if odd && random.one_in(4) {
            lines.push(line(random, name, &tagged));
        }
    }
    if odd && random.one_in(2) {
        lines.remove(random.below(lines.len()));
    }
    if odd && random.one_in(2) {
        const UNTAGGED: [&str; 8] = [
            "<sip:a>",
            "",
            "x;tag",
            "tag",
            ";tag =x",
            "\"n;tag=x\" <sip:a>",
            "<sip:a;tag=x>",
            "\"n;tag=x",
        ];
        let untagged = |random: &mut Random| random.pick(&UNTAGGED).into();
        let name = random.pick(&["From", "To"]);
        lines.insert(0, line(random, name, &untagged));
    }
}

/// A value with a tag.
fn tagged(random: &mut Random) -> Vec<u8> {
    let tag = match random.below(24) {
        0 => "t".repeat(near(random, 128)),
        1 => "\"a;b\"".into(),
        _ => random.pick(&["x", "y", "z7", "", "x y", " x", "x;tag=w"]).into(),
    };
    [front_of_tag(random), &tag].concat().into()
}

/// A Session-Expires line or none; odd ones are at the bounds or of any form.
fn session_lines(random: &mut Random, lines: &mut Vec<Vec<u8>>, odd: bool) {
    const BOUNDS: [&str; 8] = ["0", "89", "90", "86400", "86401", "4294967295", "4294967296", "00089"];
    let parts = [
        "",
        "",
        ";refresher=uac",
        ";refresher=uas",
        "; Refresher=UAC",
        ";x;refresher=uas",
    ];
    let bounded = |random: &mut Random| [random.pick(&BOUNDS), random.pick(&parts)].concat().into();
    let good = |random: &mut Random| {
        let seconds = random.pick(&[90, 91, 1800, 86_399, 86_400]);
        format!("{seconds}{}", random.pick(&parts)).into()
    };
    match random.below(4) {
        0 if odd => lines.push(line(random, "Session-Expires", &session_value)),
        _ if odd => lines.push(line(random, "Session-Expires", &bounded)),
        0 | 1 => lines.push(line(random, "Session-Expires", &good)),
        _ => {}
    }
}

/// Contact and Record-Route lines; odd ones are unreadable, at the estimate's limit, at the limit of routes, or several.
fn target_lines(random: &mut Random, lines: &mut Vec<Vec<u8>>, odd_contact: bool, odd_routes: bool) {
    if odd_contact {
        lines.push(line(random, "Contact", &odd_contact_value));
    }
    if !random.one_in(4) {
        lines.push(line(random, "Contact", &contact_value));
    }
    match random.below(6) {
        0..3 if odd_routes => lines.push(full_route_block(random)),
        _ if odd_routes => {
            lines.push(line(random, "Record-Route", &|random: &mut Random| {
                route_value(random, 5)
            }));
            lines.push(line(random, "Record-Route", &long_route));
        }
        0..3 => lines.push(line(random, "Record-Route", &short_routes)),
        _ => {}
    }
}

/// A Contact that is readable, of some length.
fn contact_value(random: &mut Random) -> Vec<u8> {
    let mut uri = short_uri(random);
    if random.one_in(2) {
        uri.extend(b";p=");
        uri.extend(std::iter::repeat_n(b'x', random.below(40)));
    }
    let open = random.pick(&["<", "<", "< ", "\"n\" <"]).as_bytes();
    let close = random.pick(&[">", ">;q=1", " >"]).as_bytes();
    [open, uri.as_slice(), close].concat()
}

/// A Contact of any form.
fn odd_contact_value(random: &mut Random) -> Vec<u8> {
    match random.below(4) {
        0 => bracketed(&uri_text(random)),
        1 => b"x".to_vec(),
        _ => bracketed(&long_uri(random)),
    }
}

/// A route whose estimate is at the limit.
fn long_route(random: &mut Random) -> Vec<u8> {
    bracketed(&long_uri(random))
}

/// One to three short routes.
fn short_routes(random: &mut Random) -> Vec<u8> {
    let routes = (0..1 + random.below(3)).map(|_| bracketed(&short_uri(random)));
    routes.collect::<Vec<_>>().join(&b',')
}

/// Lines that a message may have and that its reading passes over.
fn noise(random: &mut Random, lines: &mut Vec<Vec<u8>>) {
    if random.one_in(4) {
        identifier_lines(random, lines, false);
    }
    noise_but_identifiers(random, lines);
}

/// The same without Call-ID, From and To.
fn noise_but_identifiers(random: &mut Random, lines: &mut Vec<Vec<u8>>) {
    for _ in 0..random.below(3) {
        let name = random.pick(&["Via", "Q", "-", "Froms", "v", "Route", "Session-Expire"]);
        lines.push(line(random, name, &|random: &mut Random| {
            random.pick(&["", "1", "<sip:v>"]).into()
        }));
    }
}

/// A line of that name in some spelling and letter case, its value between blanks.
fn line(random: &mut Random, name: &str, value: &dyn Fn(&mut Random) -> Vec<u8>) -> Vec<u8> {
    let mut bytes = spelled(random, name);
    bytes.push(b':');
    bytes.extend(random.pick(&["", "", " ", "\t"]).bytes());
    bytes.extend(value(random));
    bytes.extend(random.pick(&["", "", " "]).bytes());
    bytes.extend(b"\r\n");
    bytes
}

/// The lines in some order; odd blocks are filled to the limit, damaged or empty.
fn block(random: &mut Random, mut lines: Vec<Vec<u8>>, odd: bool) -> Vec<u8> {
    shuffle(random, &mut lines);
    let choice = random.below(8);
    if odd && choice < 4 {
        let length = near(random, LONGEST);
        fill(random, &mut lines, length);
    }
    let mut block = lines.concat();
    if odd && choice == 4 {
        block.clear();
    }
    if odd && choice > 4 {
        damage(random, &mut block);
    }
    block
}
