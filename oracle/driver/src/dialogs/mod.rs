//! Creations, changes and readings of one record, compared with the Rust's `Dialog`: every byte of the image, every lent
//! byte around it, every number.

pub mod calls;
pub mod creation;
pub mod image;
pub mod listing;
mod order;
pub mod readings;
pub mod records;
pub mod room;
pub mod updates;

use crate::bounds;
use crate::random::Random;
use crate::run::{compare_each, feed_of, Fault, Feed, Operation};
use calls::Call;
use creation::Side;

pub use image::encode;

/// Makes a call on an image.
type Make = fn(&mut Random, &[u8]) -> Call;

/// All operations on one record, and the listing of a store, which the Rust hasn't.
pub fn all() -> Vec<&'static Operation> {
    let files: [&'static [Operation]; 4] = [
        creation::OPERATIONS,
        updates::OPERATIONS,
        readings::OPERATIONS,
        listing::OPERATIONS,
    ];
    files.into_iter().flatten().collect()
}

/// The faults of the operations that read tags, beside their own.
pub const FAULTS: &[Fault] = &[creation::UAC_FAULT, creation::UAS_FAULT, readings::MATCHES_FAULT];

/// Compares all of them: each with calls of its own, then in chains. `planted` says which have their fault put in, and which other
/// faults are.
pub fn compare_all(calls: usize, seed: u64, planted: impl Fn(&str) -> bool) -> Vec<Feed<'static>> {
    let mut feeds = compare_each(all(), FAULTS, calls, seed, planted);
    let mut random = Random::new(seed, "chains");
    for _ in 0..calls {
        chain(&mut random, &mut feeds);
    }
    feeds
}

/// The most changes in a chain.
const LONGEST_CHAIN: usize = 8;

/// A record is made, then changed up to eight times, each change given what the port left before; then it is read.
fn chain(random: &mut Random, feeds: &mut [Feed]) {
    let side = random.pick(&[Side::Uac, Side::Uas]);
    let call = creation::make(random, side);
    let Some(mut image) = next_image(feeds, side.name(), &call) else {
        return;
    };
    for _ in 0..random.below(LONGEST_CHAIN + 1) {
        let (name, make) = random.pick(updates::MAKERS);
        let call = make(random, &image);
        if let Some(next) = next_image(feeds, name, &call) {
            image = next;
        }
        if random.one_in(4) {
            let (name, make) = random.pick(readings::MAKERS);
            let call = make(random, &image);
            feed_of(feeds, name).compare(&call.input());
        }
    }
    for (name, make) in readings::MAKERS {
        let call = make(random, &image);
        feed_of(feeds, name).compare(&call.input());
    }
}

/// Compares a call; the image that the port left, if it accepted.
pub fn next_image(feeds: &mut [Feed], name: &str, call: &Call) -> Option<Vec<u8>> {
    let mut answer = feed_of(feeds, name).compare_and_go_on(&call.input());
    let length = answer.outs[0] as usize;
    let image = room::lent(&mut answer.bytes).get(..length)?.to_vec();
    (answer.number == 0).then_some(image)
}

/// Feeds an operation on images: every broken form of the templates, then random images, some of them broken, and those with 51
/// routes.
fn each_image(feed: &mut Feed, make: Make) {
    give(feed, make, "empty", &[]);
    for template in records::templates() {
        records::each_broken(&template, &mut |kind, image| give(feed, make, kind, image));
    }
    for turn in 0..feed.calls {
        let image = records::record(&mut feed.random);
        if turn % 6 == 0 {
            let (kind, broken) = records::broken(&mut feed.random, &image);
            give(feed, make, kind, &broken);
        } else {
            let call = make(&mut feed.random, &image);
            feed.compare(&call.input());
        }
        if turn % 200 == 0 {
            give(feed, make, "empty", &[]);
        }
    }
    for _ in 0..records::CROWDED_TIMES {
        let image = records::crowded(&mut feed.random);
        give(feed, make, records::CROWDED, &image);
    }
}

/// Feeds a broken image of that kind.
fn give(feed: &mut Feed, make: Make, kind: &'static str, image: &[u8]) {
    if image::decode(image).is_none() {
        bounds::met(feed.operation().name, "image", kind);
    }
    let call = make(&mut feed.random, image);
    feed.compare(&call.input());
}
