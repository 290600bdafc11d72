//! Calls to feed on a PRACK store: on what is held or on nothing, at times around those that are held, with RAcks that name a
//! response or nearly do.

use super::book::Book;
use super::call::{Action, Call};
use super::layout::{encode, Entry, Response, MOST, RESPONSE};
use super::steps::LONG;
use crate::dialogs::calls::lent_for;
use crate::random::Random;
use crate::rseq::TEXTS;
use crate::rules::LONGEST;
use crate::settings;
use crate::texts::{damage, near, number_text, recased, METHOD_TEXTS};
use port::Settings;
use std::collections::BTreeMap;

/// The texts of a list's entries: few, so that they meet again.
pub struct Pool(Vec<Vec<u8>>);

impl Pool {
    /// Up to six texts, at times thirty.
    pub fn new(random: &mut Random) -> Pool {
        let most = random.pick(&[1, 3, 6, 6, 6, 6, 6, 30]);
        Pool((0..1 + random.below(most)).map(|_| text(random)).collect())
    }

    /// These.
    pub fn of(texts: impl Iterator<Item = Vec<u8>>) -> Pool {
        Pool(texts.collect())
    }

    /// One of them.
    fn pick(&self, random: &mut Random) -> Vec<u8> {
        self.0[random.below(self.0.len())].clone()
    }

    /// A store of some of them.
    pub fn store(&self, random: &mut Random, settings: Settings) -> Vec<u8> {
        let some: Vec<&Vec<u8>> = self.0.iter().filter(|_| random.one_in(2)).collect();
        let entries = some.into_iter().map(|id| (id.clone(), entry(random, settings, id)));
        let entries: BTreeMap<Vec<u8>, Entry> = entries.collect();
        encode(&entries.into_values().collect::<Vec<Entry>>())
    }
}

/// A text: mostly short, at times of any bytes, as long as a length byte can say, or the longest.
fn text(random: &mut Random) -> Vec<u8> {
    match random.below(64) {
        0..6 => (0..random.below(4)).map(|_| random.next() as u8).collect(),
        6 => vec![random.pick(b"ax\0\xff"); near(random, 256)],
        7 if random.one_in(4) => vec![b'a'; LONGEST],
        _ => random.pick(&TEXTS).to_vec(),
    }
}

/// Numbers of few values, so that they meet again, and those at the bounds.
const NUMBERS: [u32; 9] = [0, 1, 1, 2, 2, 3, 1 << 31, u32::MAX - 1, u32::MAX];

/// An RSeq or a CSeq.
pub fn number(random: &mut Random) -> u32 {
    match random.below(12) {
        0 => random.next() as u32,
        _ => random.pick(&NUMBERS),
    }
}

/// A code.
fn code(random: &mut Random) -> u16 {
    match random.below(6) {
        0 => random.next() as u16,
        _ => random.pick(&[0, 100, 180, 183, 199, u16::MAX]),
    }
}

/// A method's number, mostly INVITE's.
fn method(random: &mut Random) -> u8 {
    match random.below(3) {
        0 => 1 + random.below(14) as u8,
        _ => random.pick(&[1, 1, 1, 8, 14]),
    }
}

/// A response of a store handed in: mostly near a time, or so long from it.
pub fn response(random: &mut Random, near: u64, long: u64) -> Response {
    Response {
        rseq: number(random),
        cseq: number(random),
        method: method(random),
        code: code(random),
        acknowledged: random.one_in(3),
        registered_at: time_near(random, near, long),
    }
}

/// An entry of a store handed in. Mostly an acknowledged response is the first of its RSeq: others no call of the Rust makes.
fn entry(random: &mut Random, settings: Settings, id: &[u8]) -> Entry {
    let cleaned_at = match random.below(8) {
        0 => random.pick(&[0, u64::MAX, LONG, u64::MAX - LONG]),
        1 => random.next(),
        _ => LONG * (1 + random.below(9) as u64),
    };
    let pending = settings.pending as usize;
    let most = random.pick(&[0, 1, 3, 3, pending - 1, pending]).min(pending);
    let mut list: Vec<Response> = (0..random.below(most + 1))
        .map(|_| {
            let long = long(random, settings);
            response(random, cleaned_at, long)
        })
        .collect();
    if !random.one_in(16) {
        for at in 0..list.len() {
            let rseq = list[at].rseq;
            list[at].acknowledged &= list[..at].iter().all(|other| other.rseq != rseq);
        }
    }
    Entry {
        id: id.to_vec(),
        cleaned_at,
        list: (!random.one_in(5)).then_some(list),
    }
}

/// The site's cleanup or its timeout, in nanoseconds.
fn long(random: &mut Random, settings: Settings) -> u64 {
    let [cleanup, timeout] = settings::times(settings);
    match cleanup == timeout {
        true => cleanup,
        false => random.pick(&[cleanup, timeout]),
    }
}

/// A time: that one, a little later or earlier, around so long later or earlier, at times an end of the scale or any.
fn time_near(random: &mut Random, time: u64, long: u64) -> u64 {
    let little = random.below(3) as u64;
    match random.below(24) {
        0..6 => time,
        6..10 => time.saturating_add(random.below(1000) as u64),
        10..12 => time.saturating_add(random.next() % long),
        12..18 => time.saturating_add(long - 1).saturating_add(little),
        18 => time.saturating_add(2 * long),
        19 => time.saturating_sub(long - 1).saturating_sub(little),
        20 | 21 => time.saturating_sub(random.below(1000) as u64),
        22 if random.one_in(12) => random.pick(&[0, 0, u64::MAX]),
        23 if random.one_in(12) => random.next(),
        _ => time.saturating_add(1),
    }
}

/// The time of a call: around one that is held for its text, or around the latest of all cleanups.
fn time(random: &mut Random, book: &Book, id: &[u8]) -> u64 {
    let latest = book.entries.iter().map(|entry| entry.cleaned_at).max().unwrap_or(LONG);
    let held = book.held(id);
    let cleaned_at = held.map_or(latest, |entry| entry.cleaned_at);
    let responses = held.map(Entry::responses).unwrap_or_default();
    let base = match random.below(4) {
        0 => latest,
        1 if !responses.is_empty() => responses[random.below(responses.len())].registered_at,
        _ => cleaned_at,
    };
    let long = long(random, book.settings);
    time_near(random, base, long)
}

/// A random call; the fewer of the pool's texts the store has, the more new ones.
pub fn make(random: &mut Random, pool: &Pool, book: &Book) -> Call {
    let id = id(random, pool, book);
    let action = match random.below(40) {
        0..12 => Action::Register {
            rseq: number(random),
            cseq: number(random),
            method: method_given(random),
            code: code(random),
            time: time(random, book, &id),
        },
        12..26 => Action::Validate {
            block: block(random, book, &id),
            time: time(random, book, &id),
        },
        26..29 => Action::IsPracked {
            rseq: rseq(random, book, &id),
        },
        29..34 => Action::GetPending {
            time: time(random, book, &id),
            room: room(random, book, &id),
        },
        34 if random.one_in(2) => Action::RemoveDialog,
        34 => Action::IsPracked { rseq: number(random) },
        _ => Action::RemovePracked {
            rseq: rseq(random, book, &id),
        },
    };
    Call { id, action }
}

/// A held text or one of the pool; at times nearly that, or at the limit.
fn id(random: &mut Random, pool: &Pool, book: &Book) -> Vec<u8> {
    let mut id = if book.entries.is_empty() || random.one_in(3) {
        pool.pick(random)
    } else {
        book.entries[random.below(book.entries.len())].id.clone()
    };
    match random.below(96) {
        0 => damage(random, &mut id),
        1 => id = vec![b'a'; near(random, LONGEST)],
        2 => id.push(random.next() as u8),
        3 => drop(id.pop()),
        _ => {}
    }
    id
}

/// The method's number that a register is given: mostly one.
fn method_given(random: &mut Random) -> u8 {
    match random.below(48) {
        0 => random.pick(&[0, 15, 16, u8::MAX]),
        _ => method(random),
    }
}

/// An RSeq of the text's list, or another.
fn rseq(random: &mut Random, book: &Book, id: &[u8]) -> u32 {
    match held_response(random, book, id) {
        Some(response) if !random.one_in(4) => response.rseq,
        _ => number(random),
    }
}

/// One of the responses of a text.
fn held_response(random: &mut Random, book: &Book, id: &[u8]) -> Option<Response> {
    let responses = book.held(id)?.responses();
    (!responses.is_empty()).then(|| responses[random.below(responses.len())])
}

/// Lent output for the responses of a text.
fn room(random: &mut Random, book: &Book, id: &[u8]) -> usize {
    let responses = book.held(id).map(Entry::responses).unwrap_or_default();
    let pending = responses.iter().filter(|response| !response.acknowledged).count();
    match random.below(8) {
        0 => RESPONSE * MOST,
        _ => lent_for(random, 6 * pending),
    }
}

/// The block of a PRACK: its RAck names a response of the text, or nearly.
fn block(random: &mut Random, book: &Book, id: &[u8]) -> Vec<u8> {
    let held = held_response(random, book, id);
    let mut response = held.unwrap_or_else(|| response(random, 0, LONG));
    match random.below(10) {
        0 => response.rseq = number(random),
        1 => response.cseq = number(random),
        2 => response.method = method(random),
        _ => {}
    }
    let value = match random.below(12) {
        0 => odd_value(random, &response),
        _ => value(random, &response),
    };
    let mut lines = vec![line(random, &value)];
    if random.one_in(12) {
        lines.push(line(random, b"7 7 BYE"));
    }
    match random.below(24) {
        0 => lines.clear(),
        1 => lines.insert(0, b"RAcks:1 1 ACK\r\n".to_vec()),
        2 => lines.insert(0, b"Via:SIP/2.0/UDP h\r\n".to_vec()),
        3 => lines.push(b"CSeq:1 PRACK\r\n".to_vec()),
        4 => crate::blocks::shuffle(random, &mut lines),
        _ => {}
    }
    if random.one_in(64) {
        let length = near(random, LONGEST);
        crate::blocks::fill(random, &mut lines, length);
    }
    let mut block = lines.concat();
    if random.one_in(32) {
        damage(random, &mut block);
    }
    block
}

/// A RAck line.
fn line(random: &mut Random, value: &[u8]) -> Vec<u8> {
    let name = if random.one_in(3) {
        recased(random, "RAck")
    } else {
        b"RAck".to_vec()
    };
    let blank: &[u8] = random.pick(&[b"".as_slice(), b" ", b"\t "]);
    [name.as_slice(), b":", blank, value, b"\r\n"].concat()
}

/// The RAck of a response, in any form that is read.
fn value(random: &mut Random, response: &Response) -> Vec<u8> {
    let mut value = Vec::new();
    for number in [response.rseq, response.cseq] {
        value.extend(random.pick(&["", "", "", "+", "0", "+000"]).bytes());
        value.extend(number.to_string().bytes());
        value.extend(random.pick(&[" ", " ", "\t", "  "]).bytes());
    }
    let name = METHOD_TEXTS[usize::from(response.method) - 1];
    value.extend(if random.one_in(3) {
        recased(random, name)
    } else {
        name.into()
    });
    value
}

/// One that mostly isn't read: a part missing, one too many, or odd.
fn odd_value(random: &mut Random, response: &Response) -> Vec<u8> {
    let mut value = value(random, response);
    match random.below(6) {
        0 => value.clear(),
        1 => value.extend(b" x"),
        2 => drop(value.pop()),
        3 => {
            value = number_text(random);
            value.extend(b" 1 INVITE");
        }
        4 => {
            value = b"1 ".to_vec();
            value.extend(number_text(random));
            value.extend(b" INVITE");
        }
        _ => value.truncate(random.below(value.len() + 1)),
    }
    value
}
