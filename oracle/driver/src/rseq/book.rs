//! What the store must hold: the numbers are those of the Rust's manager, their order is the layout's.

use super::call::Call;
use super::layout::{decode, encode, entry_size, Entry};
use crate::store::call::Id;
use crate::store::given;
use sip_dialog::{storage, DialogId, RSeqManager};

/// The Rust's manager, and its entries in ascending order as it holds them.
pub struct Book {
    pub manager: RSeqManager,
    pub entries: Vec<Entry>,
}

impl Book {
    /// The book of a store handed in; nothing where the bytes aren't one.
    pub fn of_bytes(bytes: &[u8]) -> Option<Book> {
        let mut book = Book {
            manager: RSeqManager::new(),
            entries: Vec::new(),
        };
        for (id, number) in decode(bytes)? {
            storage::hold_rseq(&book.manager, dialog_id(&id), number);
        }
        book.read_back();
        assert!(book.bytes() == bytes, "the Rust holds the store handed in");
        Some(book)
    }

    /// The store's used bytes.
    pub fn bytes(&self) -> Vec<u8> {
        encode(&self.entries)
    }

    /// How many they are.
    pub fn used(&self) -> usize {
        self.entries.iter().map(|(id, _)| entry_size(id)).sum()
    }

    /// How many they would be after a call, were there room.
    pub fn used_after(&self, call: &Call) -> usize {
        match call {
            Call::Next { id, .. } if self.held(id).is_none() => self.used() + entry_size(id),
            Call::Remove(id) if self.held(id).is_some() => self.used() - entry_size(id),
            _ => self.used(),
        }
    }

    /// The number of an identifier, as the Rust last said.
    pub fn held(&self, id: &Id) -> Option<u32> {
        let place = self.place(id).ok()?;
        Some(self.entries[place].1)
    }

    /// Where the identifier's entry stands, or would.
    pub fn place(&self, id: &Id) -> Result<usize, usize> {
        self.entries.binary_search_by(|(held, _)| held.cmp(id))
    }

    /// Reads every entry back from the Rust.
    pub fn read_back(&mut self) {
        let said = storage::rseqs(&self.manager);
        self.entries = said.iter().map(|(id, number)| (texts_of(id), *number)).collect();
        self.entries.sort();
    }
}

/// The Rust's identifier of three texts of any bytes.
pub fn dialog_id(id: &Id) -> DialogId {
    let [call_id, local, remote] = [&id[0], &id[1], &id[2]].map(|bytes| given::text_of(bytes));
    DialogId::unchecked_new(call_id, local, remote)
}

/// What the tables say of an identifier: whether the Rust is given all three texts as they are.
pub fn kind_of(id: &Id) -> &'static str {
    let mut kinds = id.iter().map(|bytes| given::kind_of(bytes));
    kinds.find(|kind| *kind != given::AS_IS).unwrap_or(given::AS_IS)
}

/// The bytes of an identifier of the Rust.
fn texts_of(id: &DialogId) -> Id {
    [id.call_id(), id.local_tag(), id.remote_tag()].map(given::bytes_of)
}
