//! Calls to feed on a store: on its records or on none, mostly good, and lent bytes around the size of the result.

use super::book::Book;
use super::call::{texts_of, Call, Id};
use crate::dialogs::{self, calls::lent_for, encode, records};
use crate::random::Random;
use crate::rules::LONGEST;
use crate::texts::{damage, near, recased};
use sip_dialog::DialogId;

/// The identifiers of a list's records: few, so that they meet again.
pub struct Pool(Vec<DialogId>);

impl Pool {
    /// Up to twelve identifiers, at times eighty, of up to three Call-IDs.
    pub fn new(random: &mut Random) -> Pool {
        let call_ids = [0; 3].map(|_| random.pick(&["c1", "c1", "c2@h", "a b", "C1", ""]));
        let tag = |random: &mut Random| match random.one_in(16) {
            true => "\"a;b\"",
            false => random.pick(&["x", "y", "z7", "X", "x y", ""]),
        };
        let one = |random: &mut Random| match random.below(16) {
            0 => records::parts(random).id,
            _ => DialogId::unchecked_new(random.pick(&call_ids), tag(random), tag(random)),
        };
        let most = random.pick(&[2, 12, 12, 12, 12, 80]);
        Pool((0..1 + random.below(most)).map(|_| one(random)).collect())
    }

    /// These.
    pub fn of(ids: impl Iterator<Item = DialogId>) -> Pool {
        Pool(ids.collect())
    }

    /// One of them.
    fn pick(&self, random: &mut Random) -> DialogId {
        self.0[random.below(self.0.len())].clone()
    }
}

/// A random call; the fewer of the pool's records the store has, the more puts.
pub fn make(random: &mut Random, pool: &Pool, book: &Book) -> Call {
    if random.below(pool.0.len()) > 2 * book.order.len() + 1 {
        return Call::Put(image(random, pool));
    }
    match random.below(44) {
        0..5 => Call::Put(image(random, pool)),
        5..17 => request(random, pool, book),
        17..22 => Call::Response {
            id: id(random, pool, book),
            status: dialogs::calls::any_status(random),
            block: dialogs::calls::response(random),
        },
        22..24 => Call::Terminate(id(random, pool, book)),
        24..26 => Call::Next(id(random, pool, book)),
        26..29 => Call::Set {
            id: id(random, pool, book),
            seconds: dialogs::calls::any_seconds(random),
        },
        29..31 => Call::Remove(id(random, pool, book)),
        31..33 => Call::Sweep,
        33..35 => Call::Get(id(random, pool, book)),
        35..37 => Call::FindByCallId(std::mem::take(&mut id(random, pool, book)[0])),
        37..40 => {
            let id = held_id(random, pool, book);
            Call::FindByRequest(dialogs::calls::named_request(random, Some(&id)))
        }
        40..42 => Call::Count,
        _ => Call::AllIds(lent_for(random, book.all_ids().len())),
    }
}

/// The identifier of a held record, or at times one of the pool.
fn held_id(random: &mut Random, pool: &Pool, book: &Book) -> DialogId {
    if book.order.is_empty() || random.one_in(12) {
        return pool.pick(random);
    }
    book.order[random.below(book.order.len())].clone()
}

/// The texts of one; at times nearly those, or with a part empty, at the limit, or of any bytes.
fn id(random: &mut Random, pool: &Pool, book: &Book) -> Id {
    let mut id = texts_of(&held_id(random, pool, book));
    let part = random.below(3);
    match random.below(48) {
        0 => id.swap(1, 2),
        1 => damage(random, &mut id[part]),
        2 | 3 => id[part] = vec![b'x'; near(random, LONGEST)],
        4 => id[part].clear(),
        5 => id[part] = recased(random, &String::from_utf8_lossy(&id[part])),
        6 => id[part] = (0..random.below(4)).map(|_| random.next() as u8).collect(),
        _ => {}
    }
    id
}

/// Images over this length are put seldom.
const LARGE: usize = 4000;

/// The image of a record of any kind under an identifier of the pool; at times it is broken.
fn image(random: &mut Random, pool: &Pool) -> Vec<u8> {
    let mut parts = records::parts(random);
    parts.id = pool.pick(random);
    let image = encode(&parts.dialog());
    if image.len() > LARGE && !random.one_in(12) {
        return self::image(random, pool);
    }
    match random.below(16) {
        0 => records::broken(random, &image).1,
        _ => image,
    }
}

/// A request on a held record, or at times on none.
fn request(random: &mut Random, pool: &Pool, book: &Book) -> Call {
    let id = held_id(random, pool, book);
    let remote = book.dialog(&id).map_or(0, |dialog| dialog.remote_cseq());
    let (method, block) = dialogs::calls::request_naming(random, &id, remote, book.settings.cseq_jump);
    Call::Request { method, block }
}

/// How many bytes to lend: around the size of the result, seldom fewer than are used.
pub fn lent(random: &mut Random, used: usize, used_after: usize) -> usize {
    if random.one_in(32) {
        return random.pick(&[0, used.saturating_sub(1), used / 2]);
    }
    lent_for(random, used_after).max(used)
}
