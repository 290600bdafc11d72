//! The store of records as a kind of store.

use super::ask::ask;
use super::book::Book;
use super::call::{Call, NEXT, OPERATIONS, REQUEST};
use super::describe::run_of;
use super::expect::{expect, meet_site};
use super::kind::{Damage, Kind};
use super::memory::Left;
use crate::run::Entry;
use port::Settings;

/// The store of records.
pub struct Dialogs;

impl Kind for Dialogs {
    type Call = Call;
    type Book = Book;

    const OPERATIONS: &'static [Entry] = OPERATIONS;

    fn name(call: &Call) -> &'static str {
        call.name()
    }

    fn texts(call: &Call) -> Vec<(&'static str, &[u8])> {
        call.texts()
    }

    fn arguments(call: &Call) -> Vec<String> {
        match call {
            Call::Put(image) => vec![format!("image: {}", run_of(image))],
            Call::Response { status, .. } => vec![format!("status {status}")],
            Call::Set { seconds, .. } => vec![format!("seconds {seconds}")],
            Call::AllIds(lent) => vec![format!("lent output {lent}")],
            _ => Vec::new(),
        }
    }

    fn widest(call: &Call) -> [u64; 3] {
        match call.name() {
            NEXT => [u64::from(u32::MAX); 3],
            _ => [u64::MAX; 3],
        }
    }

    fn output(call: &Call) -> usize {
        match call {
            Call::AllIds(lent) => *lent,
            _ => 0,
        }
    }

    fn updates(call: &Call) -> bool {
        call.name() == REQUEST
    }

    fn book(bytes: &[u8], counts: [u64; 2], settings: Settings) -> Option<Book> {
        Book::of_bytes(bytes, counts, settings)
    }

    fn used(book: &Book) -> usize {
        book.used()
    }

    fn used_after(book: &Book, call: &Call) -> usize {
        book.used_after(call)
    }

    fn meet_site(name: &'static str, book: &Result<Book, Damage>, call: &Call) {
        if let Ok(book) = book {
            meet_site(name, book, call);
        }
    }

    fn expect(book: &mut Result<Book, Damage>, call: &Call, lent: usize, left: &mut Left) {
        expect(book, call, lent, left);
    }

    fn ask(call: &Call, lent: usize, left: &mut Left) {
        ask(call, lent, left);
    }
}
