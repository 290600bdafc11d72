//! Bytes that are no store: one that is damaged, or that has one identifier twice.

use super::book::Book;
use super::kind::Damage;
use crate::dialogs::{encode, records};
use crate::random::Random;

/// The damage that a single image doesn't know.
const TWICE: Damage = "one identifier twice";

/// The used bytes of the book's store, damaged once. They may be a store still: a changed byte can give another one.
pub fn damaged(random: &mut Random, book: &Book) -> (Damage, Vec<u8>) {
    if book.images.is_empty() {
        return (records::LONGER, vec![random.next() as u8]);
    }
    if random.one_in(4) {
        return (TWICE, twice(random, book));
    }
    records::broken(random, &book.images.concat())
}

/// One record stands again somewhere, or another one of its identifier does.
fn twice(random: &mut Random, book: &Book) -> Vec<u8> {
    let again = random.below(book.images.len());
    let mut image = book.images[again].clone();
    if random.one_in(2) {
        let mut parts = records::parts(random);
        parts.id = book.order[again].clone();
        image = encode(&parts.dialog());
    }
    let mut images = book.images.clone();
    images.insert(random.below(images.len() + 1), image);
    images.concat()
}
