//! What the store must hold: the records come from the Rust's manager, their order from the run's own list.

use super::call::{dialog_id, Call};
use super::rust::Rust;
use crate::bounds;
use crate::dialogs::creation::method_of;
use crate::dialogs::image::{self, encode, text_field};
use crate::dialogs::updates::{raise_local, set_interval, take_request, take_response};
use crate::messages::request;
use crate::rules;
use crate::tags::{self, Message};
use port::Settings;
use sip_core::{Headers, Method};
use sip_dialog::{Dialog, DialogId};
use std::collections::HashSet;

/// The Rust's manager, the identifiers of its records in the store's order, and their images as the manager holds them.
pub struct Book {
    pub rust: Rust,
    pub order: Vec<DialogId>,
    pub images: Vec<Vec<u8>>,
    /// The site's.
    pub settings: Settings,
    /// The created and the terminated count at the start.
    counts: [u64; 2],
}

impl Book {
    /// The book of a store handed in; nothing where the bytes aren't one.
    pub fn of_bytes(bytes: &[u8], counts: [u64; 2], settings: Settings) -> Option<Book> {
        let records = image::decode_all(bytes)?;
        let order: Vec<DialogId> = records.iter().map(|record| record.dialog.id().clone()).collect();
        if order.iter().collect::<HashSet<_>>().len() < order.len() {
            return None;
        }
        let mut rust = Rust::new();
        for record in records {
            rust.put_back(record.dialog);
        }
        let mut book = Book {
            rust,
            order,
            images: Vec::new(),
            settings,
            counts,
        };
        book.read_back();
        Some(book)
    }

    /// The dialog of an identifier, as the Rust holds it.
    pub fn dialog(&self, id: &DialogId) -> Option<Dialog> {
        self.rust.manager.get(id)
    }

    /// How many bytes the store has.
    pub fn used(&self) -> usize {
        self.images.iter().map(Vec::len).sum()
    }

    /// How many it would have after a call, were there room.
    pub fn used_after(&self, call: &Call) -> usize {
        let sizes = match call {
            Call::Put(image) => self.sizes_of_put(image),
            _ => bounds::quietly(|| self.sizes_of_change(call)),
        };
        sizes.map_or(self.used(), |[out, into]| self.used() - out + into)
    }

    /// The lengths of the image that a put takes out and of the one that it brings in.
    fn sizes_of_put(&self, image: &[u8]) -> Option<[usize; 2]> {
        let dialog = image::decode(image)?.dialog;
        let held = self.dialog(dialog.id());
        Some([held.map_or(0, |held| encode(&held).len()), image.len()])
    }

    /// The same of a change.
    fn sizes_of_change(&self, call: &Call) -> Option<[usize; 2]> {
        let headers = rules::headers(call.block()).ok()?;
        let mut dialog = self.dialog(&self.named(call, &headers)?)?;
        let before = encode(&dialog).len();
        change(call, self.settings, &headers, &mut dialog).ok()?;
        Some([before, encode(&dialog).len()])
    }

    /// The identifier that a call names: that of the dialog which is found by its request, or the given one.
    pub fn named(&self, call: &Call, headers: &Headers) -> Option<DialogId> {
        match call {
            Call::Request { .. } | Call::FindByRequest(_) => {
                let found = self.found(call, headers);
                tags::meet_answer(call.name(), tags::block_holds(call.block()), found.is_some());
                Some(found?.id().clone())
            }
            _ => dialog_id(call.id()?),
        }
    }

    /// The dialog that the Rust finds by a request. Where From or To holds a semicolon: the one that it gets by the identifier of
    /// the run's own reading.
    fn found(&self, call: &Call, headers: &Headers) -> Option<Dialog> {
        let block = call.block();
        let parts = tags::identifier(call.name(), block, Message::Request);
        let id = parts.map(|parts| tags::id_of(block, &parts));
        meet_identifier(call.name(), id.as_ref());
        match tags::block_holds(block) {
            true => self.dialog(&tags::swapped(&id?)),
            false => self
                .rust
                .manager
                .find_by_request(&request(Method::Invite, headers.clone())),
        }
    }

    /// The identifiers of all records in the store's order, each as three texts with two length bytes.
    pub fn all_ids(&self) -> Vec<u8> {
        let texts = self
            .order
            .iter()
            .flat_map(|id| [id.call_id(), id.local_tag(), id.remote_tag()]);
        texts.flat_map(text_field).collect()
    }

    /// Reads every record back from the Rust, which must hold those of the list and no others.
    pub fn read_back(&mut self) {
        assert_eq!(
            self.rust.manager.count(),
            self.order.len(),
            "the Rust holds other records than the list"
        );
        let image = |id: &DialogId| encode(&self.dialog(id).expect("the Rust holds the list's record"));
        self.images = self.order.iter().map(image).collect();
    }

    /// The two counts. At the largest number the Rust would overflow; document 01 says that a count stops there.
    pub fn counts(&self) -> [u64; 2] {
        let [created, terminated] = self.rust.counts();
        [
            self.counts[0].saturating_add(created),
            self.counts[1].saturating_add(terminated),
        ]
    }
}

/// Says which identifier a request has.
fn meet_identifier(operation: &'static str, id: Option<&DialogId>) {
    let side = match id {
        None => "a part absent",
        Some(id) if id.call_id().is_empty() => "an empty Call-ID",
        Some(id) if id.local_tag().is_empty() || id.remote_tag().is_empty() => "an empty tag",
        Some(_) => "no part empty",
    };
    bounds::met(operation, "identifier", side);
}

/// The Rust's method that a call asks of a record; the number that it answers, if it does.
pub fn change(call: &Call, settings: Settings, headers: &Headers, dialog: &mut Dialog) -> Result<Option<u64>, u8> {
    let operation = call.name();
    match call {
        Call::Request { method, .. } => {
            let request = request(method_of(method), headers.clone());
            take_request(operation, dialog, &request, settings.cseq_jump)?;
        }
        Call::Response { status, .. } => take_response(operation, dialog, *status, headers.clone()),
        Call::Terminate(_) => dialog.terminate(),
        Call::Next(_) => return Ok(Some(raise_local(operation, dialog))),
        Call::Set { seconds, .. } => set_interval(operation, dialog, *seconds)?,
        _ => {}
    }
    Ok(None)
}
