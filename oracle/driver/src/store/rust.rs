//! The Rust's side: its `DialogManager`, whose two counts are taken lower by what a store's caller doesn't count.

use crate::dialogs::creation::error_number;
use sip_dialog::{storage, Dialog, DialogId, DialogManager};

/// The Rust's manager, and how much of its created and terminated counts isn't a put or a removal of the run.
pub struct Rust {
    pub manager: DialogManager,
    uncounted: [u64; 2],
}

impl Rust {
    /// A manager that holds nothing and has counted nothing.
    pub fn new() -> Rust {
        Rust {
            manager: DialogManager::new(),
            uncounted: [0, 0],
        }
    }

    /// The created and the terminated count.
    pub fn counts(&self) -> [u64; 2] {
        let said = self.manager.metrics.snapshot();
        [said.created - self.uncounted[0], said.terminated - self.uncounted[1]]
    }

    /// Puts a dialog: 16 or 17.
    pub fn insert(&self, dialog: Dialog) -> Result<(), u8> {
        self.manager.insert(dialog).map_err(error_number)
    }

    /// Undoes an insert that replaced `held`.
    pub fn undo_insert(&mut self, id: &DialogId, held: Option<Dialog>) {
        self.uncounted[0] += 1;
        match held {
            Some(dialog) => storage::hold(&self.manager, dialog),
            None => drop(self.take_out(id)),
        }
    }

    /// The first half of a round: the dialog is removed, which isn't counted.
    pub fn take_out(&mut self, id: &DialogId) -> Option<Dialog> {
        let dialog = self.manager.remove(id)?;
        self.uncounted[1] += 1;
        Some(dialog)
    }

    /// The second half: the dialog is inserted, which isn't counted. Where `insert` refuses it, it is held past the limits;
    /// that can only be in a store handed in that is over them. Whether `insert` took it.
    pub fn put_back(&mut self, dialog: Dialog) -> bool {
        let taken = self.manager.insert(dialog.clone()).is_ok();
        if taken {
            self.uncounted[0] += 1;
        } else {
            storage::hold(&self.manager, dialog);
        }
        taken
    }
}
