//! Record images to feed: of any fields that an image may have, and broken ones.

use super::image::{self, Parts};
use crate::random::Random;
use crate::texts::sequence;
use crate::uris::{long_uri, short_uri};
use sip_core::{RefresherRole, SipUri};
use sip_dialog::{DialogId, DialogStateType};

/// Images whose every byte is changed to every other: the example of document 01, and one with every bit.
pub fn templates() -> Vec<Vec<u8>> {
    let example =
        b"\x01\x7f\x00\x02c1\x00\x01L\x00\x01R\x02\x00\x07sip:r@h\x00\x07sip:l@h\x00\x07sip:r@h\x00\x00\x00\x07";
    let uri = |text: &str| SipUri::parse(text).expect("readable");
    let full = Parts {
        id: DialogId::unchecked_new("c", "l", "r"),
        state: DialogStateType::Early,
        target: uri("sip:h"),
        local_uri: uri("sips:h"),
        remote_uri: uri("sip:h"),
        local: 1,
        remote: 1,
        last_ack: Some(0),
        seconds: Some(90),
        refresher: Some(RefresherRole::Uac),
        routes: vec![uri("sip:a"), uri("sip:b")],
        is_uac: true,
    };
    let images = vec![example.to_vec(), image::encode(&full.dialog())];
    assert!(
        images.iter().all(|image| image::decode(image).is_some()),
        "the templates are images"
    );
    images
}

/// An image of a record of any kind.
pub fn record(random: &mut Random) -> Vec<u8> {
    image::encode(&parts(random).dialog())
}

/// The fields of a record of any kind.
pub fn parts(random: &mut Random) -> Parts {
    let states = [
        DialogStateType::Early,
        DialogStateType::Confirmed,
        DialogStateType::Terminated,
    ];
    let roles = [None, Some(RefresherRole::Uac), Some(RefresherRole::Uas)];
    Parts {
        id: DialogId::unchecked_new(id_text(random), id_text(random), id_text(random)),
        state: random.pick(&states),
        target: uri(random),
        local_uri: uri(random),
        remote_uri: uri(random),
        local: number(random),
        remote: number(random),
        last_ack: random.one_in(2).then(|| number(random)),
        seconds: random.one_in(2).then(|| seconds(random)),
        refresher: random.pick(&roles),
        routes: routes(random),
        is_uac: random.one_in(2),
    }
}

/// The longest text of an image.
const LONGEST_TEXT: usize = u16::MAX as usize;

/// An identifier part: short, empty, with blanks, quotes or semicolons, at times the longest.
fn id_text(random: &mut Random) -> String {
    let text = match random.below(500) {
        0 => vec![b'x'; LONGEST_TEXT],
        1..50 => sequence(random, &["x", "\"", "\"a;b\"", "<c;d>"], 3),
        _ => sequence(random, &["c1", "x", "@", " ", "\t", ";tag=", "~", "Y"], 3),
    };
    String::from_utf8(text).expect("ASCII")
}

/// A URI: short, with parameters, with a long user or host, at times the longest.
fn uri(random: &mut Random) -> SipUri {
    let mut text = short_uri(random);
    match random.below(64) {
        0 => text = long_uri(random),
        1 if random.one_in(8) => {
            text.push(b';');
            text.resize(LONGEST_TEXT, b'x');
        }
        2..16 => {
            text.push(b';');
            text.extend(std::iter::repeat_n(b'y', random.below(40)));
        }
        _ => {}
    }
    let text = String::from_utf8(text).expect("ASCII");
    SipUri::parse(&text).expect("readable")
}

/// A number, mostly at a bound.
fn number(random: &mut Random) -> u32 {
    const BOUNDS: [u32; 12] = [
        0,
        0,
        1,
        7,
        1000,
        (1 << 31) - 1001,
        (1 << 31) - 2,
        (1 << 31) - 1,
        1 << 31,
        (1 << 31) + 1,
        u32::MAX - 1,
        u32::MAX,
    ];
    match random.below(4) {
        0 => (random.next() >> (32 + random.below(32))) as u32,
        _ => random.pick(&BOUNDS),
    }
}

/// Seconds, mostly at a bound.
fn seconds(random: &mut Random) -> u32 {
    match random.below(4) {
        0 => (random.next() >> (32 + random.below(32))) as u32,
        _ => random.pick(&[0, 1, 89, 90, 1800, 86_400, 86_401, u32::MAX]),
    }
}

/// No routes, a few, or about 50.
fn routes(random: &mut Random) -> Vec<SipUri> {
    let count = match random.below(16) {
        0..8 => 0,
        8..14 => 1 + random.below(3),
        14 => 50,
        _ => 49,
    };
    (0..count).map(|_| uri(random)).collect()
}

/// How a broken image differs from the image that it was.
pub const CHANGED: &str = "a byte changed";
pub const CUT: &str = "cut off";
pub const LONGER: &str = "a byte behind it";
pub const CROWDED: &str = "51 routes";

/// How often an image with 51 routes is fed.
pub const CROWDED_TIMES: usize = 25;

/// An image with one route more than an image may have: the example's with short ones, or one of a record of any kind.
pub fn crowded(random: &mut Random) -> Vec<u8> {
    let short = random.one_in(3);
    let mut parts = match short {
        true => Parts::of(&image::decode(&templates()[0]).expect("an image").dialog),
        false => parts(random),
    };
    let route = |random: &mut Random| match short {
        true => b"sip:h".to_vec(),
        false => short_uri(random),
    };
    let uri = |text: Vec<u8>| SipUri::parse(&String::from_utf8(text).expect("ASCII")).expect("readable");
    parts.routes = (0..51).map(|_| uri(route(random))).collect();
    let image = image::encode(&parts.dialog());
    assert!(image::is_crowded(&image), "an image but for its routes");
    image
}

/// An image with one byte changed, cut off, or with a byte behind it. A changed one may be an image still.
pub fn broken(random: &mut Random, image: &[u8]) -> (&'static str, Vec<u8>) {
    let mut bytes = image.to_vec();
    let place = random.below(bytes.len());
    match random.below(4) {
        0 => bytes.truncate(place),
        1 => bytes.push(random.next() as u8),
        2 => bytes[place.min(random.below(40))] ^= 1 << random.below(8),
        _ => bytes[place] = random.next() as u8,
    }
    let kind = match bytes.len() {
        length if length < image.len() => CUT,
        length if length > image.len() => LONGER,
        _ => CHANGED,
    };
    (kind, bytes)
}

/// Every image that a template becomes by any byte in any one place, by an end cut off, or by any byte behind it.
pub fn each_broken(template: &[u8], give: &mut dyn FnMut(&'static str, &[u8])) {
    let mut image = template.to_vec();
    for place in 0..image.len() {
        for byte in 0..=255 {
            image[place] = byte;
            give(CHANGED, &image);
        }
        image[place] = template[place];
        give(CUT, &image[..place]);
    }
    for byte in 0..=255 {
        image.push(byte);
        give(LONGER, &image);
        image.pop();
    }
}
