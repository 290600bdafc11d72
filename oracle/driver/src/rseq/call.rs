//! The calls on an RSeq store, and what the tables say of them.

use super::ask::ask;
use super::book::Book;
use super::expect::expect;
use crate::run::Entry;
use crate::store::call::{entry, Id, PARTS};
use crate::store::kind::{Damage, Kind};
use crate::store::memory::Left;
use port::Settings;

pub const NEXT: &str = "rseq_next";
pub const CURRENT: &str = "rseq_current";
pub const REMOVE: &str = "rseq_remove";
pub const LEN: &str = "rseq_len";
pub const IS_EMPTY: &str = "rseq_is_empty";

/// A call's own arguments.
#[derive(Debug, Clone)]
pub enum Call {
    Next { id: Id, n: u32 },
    Current(Id),
    Remove(Id),
    Len,
    IsEmpty,
}

impl Call {
    /// The operation's name.
    pub fn name(&self) -> &'static str {
        match self {
            Call::Next { .. } => NEXT,
            Call::Current(_) => CURRENT,
            Call::Remove(_) => REMOVE,
            Call::Len => LEN,
            Call::IsEmpty => IS_EMPTY,
        }
    }

    /// The identifier of a call by identifier.
    pub fn id(&self) -> Option<&Id> {
        match self {
            Call::Next { id, .. } | Call::Current(id) | Call::Remove(id) => Some(id),
            Call::Len | Call::IsEmpty => None,
        }
    }

    /// The texts that refusal 1 holds for, each with what it is bounded as.
    pub fn texts(&self) -> Vec<(&'static str, &[u8])> {
        let texts = self.id().into_iter().flatten();
        PARTS.into_iter().zip(texts.map(Vec::as_slice)).collect()
    }

    /// A call of each operation, those by identifier of this one.
    pub fn all(id: &Id, n: u32) -> [Call; 5] {
        [
            Call::Next { id: id.clone(), n },
            Call::Current(id.clone()),
            Call::Remove(id.clone()),
            Call::Len,
            Call::IsEmpty,
        ]
    }
}

/// The RSeq store.
pub struct RSeqs;

impl Kind for RSeqs {
    type Call = Call;
    type Book = Book;

    const OPERATIONS: &'static [Entry] = &[
        entry(
            NEXT,
            "Rust RSeqManager::next_rseq, the run's number source",
            &[0, 1, 3, 18],
        ),
        entry(CURRENT, "Rust RSeqManager::current_rseq", &[0, 1, 3, 15]),
        entry(REMOVE, "Rust RSeqManager::remove", &[0, 1, 3]),
        entry(LEN, "Rust RSeqManager::len", &[0, 3]),
        entry(IS_EMPTY, "Rust RSeqManager::is_empty", &[0, 3]),
    ];

    fn name(call: &Call) -> &'static str {
        call.name()
    }

    fn texts(call: &Call) -> Vec<(&'static str, &[u8])> {
        call.texts()
    }

    fn arguments(call: &Call) -> Vec<String> {
        match call {
            Call::Next { n, .. } => vec![format!("n {n}")],
            _ => Vec::new(),
        }
    }

    fn widest(call: &Call) -> [u64; 3] {
        match call {
            Call::Next { .. } | Call::Current(_) => [u64::from(u32::MAX); 3],
            Call::IsEmpty => [u64::from(u8::MAX); 3],
            Call::Remove(_) | Call::Len => [u64::MAX; 3],
        }
    }

    fn book(bytes: &[u8], _: [u64; 2], _: Settings) -> Option<Book> {
        Book::of_bytes(bytes)
    }

    fn used(book: &Book) -> usize {
        book.used()
    }

    fn used_after(book: &Book, call: &Call) -> usize {
        book.used_after(call)
    }

    fn expect(book: &mut Result<Book, Damage>, call: &Call, lent: usize, left: &mut Left) {
        expect(book, call, lent, left);
    }

    fn ask(call: &Call, lent: usize, left: &mut Left) {
        ask(call, lent, left);
    }
}
