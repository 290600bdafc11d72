//! What the store must hold: the contents are those of the Rust's validator, their order is the layout's.

use super::call::Call;
use super::layout::{decode, encode, Entry};
use super::rust::{can_hold, Rust};
use super::steps::{step, Step, Wrong};
use crate::rules;
use port::Settings;
use sip_core::Headers;

/// The entries in ascending order, and the validator that holds them; none where its calls can't lead to them, or the site has other
/// figures than the Rust.
pub struct Book {
    pub entries: Vec<Entry>,
    pub rust: Option<Rust>,
    /// The site's.
    pub settings: Settings,
}

impl Book {
    /// The book of a store handed in; nothing where the bytes aren't one.
    pub fn of_bytes(bytes: &[u8], settings: Settings) -> Option<Book> {
        let entries = decode(bytes, settings.pending as usize)?;
        let is_held = has_the_rusts_figures(settings) && entries.iter().all(can_hold);
        let rust = is_held.then(|| {
            let mut rust = Rust::new();
            entries.iter().for_each(|entry| rust.hold(entry));
            assert!(rust.entries() == entries, "the Rust holds the store handed in");
            rust
        });
        Some(Book {
            entries,
            rust,
            settings,
        })
    }

    /// The store's used bytes.
    pub fn bytes(&self) -> Vec<u8> {
        encode(&self.entries)
    }

    /// How many they are.
    pub fn used(&self) -> usize {
        self.entries.iter().map(Entry::size).sum()
    }

    /// How many they would be after a call, were there room.
    pub fn used_after(&self, call: &Call) -> usize {
        let Ok(headers) = rules::headers(call.block()) else {
            return self.used();
        };
        let held = self.held(&call.id);
        let after = step(Wrong::Nothing, self.settings, call, &headers, held).after;
        self.used() - held.map_or(0, Entry::size) + after.as_ref().map_or(0, Entry::size)
    }

    /// What is held for a text.
    pub fn held(&self, id: &[u8]) -> Option<&Entry> {
        let place = self.place(id).ok()?;
        Some(&self.entries[place])
    }

    /// Where what is held for a text stands, or would.
    pub fn place(&self, id: &[u8]) -> Result<usize, usize> {
        self.entries.binary_search_by(|held| held.id.as_slice().cmp(id))
    }

    /// Takes a call; what is then held is read back from the Rust. The run's own steps must do the same, and stand alone where
    /// the Rust can't hold the store.
    pub fn take(&mut self, call: &Call, headers: &Headers) -> Step {
        let own = step(Wrong::Nothing, self.settings, call, headers, self.held(&call.id));
        let Some(rust) = &mut self.rust else {
            set(&mut self.entries, &call.id, own.after.clone());
            return own;
        };
        let said = rust.ask(call, headers);
        self.entries = rust.entries();
        let after = self.held(&call.id).cloned();
        let step = Step { after, said };
        assert!(step == own, "the run's own steps: {own:?}, the Rust's: {step:?}");
        step
    }

    /// Holds this for a text again.
    pub fn put_back(&mut self, id: &[u8], held: Option<Entry>) {
        if let Some(rust) = &mut self.rust {
            match &held {
                Some(entry) => rust.hold(entry),
                None => rust.forget(id),
            }
        }
        set(&mut self.entries, id, held);
    }
}

/// Whether the Rust can stand for a site.
fn has_the_rusts_figures(settings: Settings) -> bool {
    let of_lists = |settings: Settings| [settings.pending, settings.cleanup_seconds, settings.timeout_seconds];
    of_lists(settings) == of_lists(Settings::RUST)
}

/// Sets what is held for a text.
pub fn set(entries: &mut Vec<Entry>, id: &[u8], after: Option<Entry>) {
    let place = entries.binary_search_by(|held| held.id.as_slice().cmp(id));
    match (place, after) {
        (Ok(place), Some(entry)) => entries[place] = entry,
        (Ok(place), None) => drop(entries.remove(place)),
        (Err(place), Some(entry)) => entries.insert(place, entry),
        (Err(_), None) => {}
    }
}
