//! The calls on a PRACK store, and what the tables say of them.

use super::ask::ask;
use super::book::Book;
use super::expect::expect;
use super::meet;
use crate::run::Entry;
use crate::store::call::entry;
use crate::store::kind::{Damage, Kind};
use crate::store::memory::Left;
use port::Settings;

pub const REGISTER: &str = "prack_register";
pub const VALIDATE: &str = "prack_validate";
pub const IS_PRACKED: &str = "prack_is_pracked";
pub const GET_PENDING: &str = "prack_get_pending";
pub const REMOVE_DIALOG: &str = "prack_remove_dialog";
pub const REMOVE_PRACKED: &str = "prack_remove_pracked";

/// What is called.
#[derive(Debug, Clone)]
pub enum Action {
    Register {
        rseq: u32,
        cseq: u32,
        method: u8,
        code: u16,
        time: u64,
    },
    Validate {
        block: Vec<u8>,
        time: u64,
    },
    IsPracked {
        rseq: u32,
    },
    /// Given so many bytes of lent output.
    GetPending {
        time: u64,
        room: usize,
    },
    RemoveDialog,
    RemovePracked {
        rseq: u32,
    },
}

/// A call's own arguments: the identifier text, and the others.
#[derive(Debug, Clone)]
pub struct Call {
    pub id: Vec<u8>,
    pub action: Action,
}

impl Call {
    /// The operation's name.
    pub fn name(&self) -> &'static str {
        match self.action {
            Action::Register { .. } => REGISTER,
            Action::Validate { .. } => VALIDATE,
            Action::IsPracked { .. } => IS_PRACKED,
            Action::GetPending { .. } => GET_PENDING,
            Action::RemoveDialog => REMOVE_DIALOG,
            Action::RemovePracked { .. } => REMOVE_PRACKED,
        }
    }

    /// The header block; the empty one, which is valid, for a call that has none.
    pub fn block(&self) -> &[u8] {
        match &self.action {
            Action::Validate { block, .. } => block,
            _ => &[],
        }
    }

    /// The time of a call that cleans.
    pub fn time(&self) -> Option<u64> {
        match self.action {
            Action::Register { time, .. } | Action::Validate { time, .. } | Action::GetPending { time, .. } => {
                Some(time)
            }
            Action::IsPracked { .. } | Action::RemoveDialog | Action::RemovePracked { .. } => None,
        }
    }

    /// The same call at another time, if it has one.
    pub fn at(mut self, now: u64) -> Call {
        match &mut self.action {
            Action::Register { time, .. } | Action::Validate { time, .. } | Action::GetPending { time, .. } => {
                *time = now
            }
            Action::IsPracked { .. } | Action::RemoveDialog | Action::RemovePracked { .. } => {}
        }
        self
    }

    /// The texts that refusal 1 holds for, each with what it is bounded as.
    pub fn texts(&self) -> Vec<(&'static str, &[u8])> {
        let mut texts = vec![("text, bytes", self.id.as_slice())];
        if let Action::Validate { block, .. } = &self.action {
            texts.push(("block, bytes", block));
        }
        texts
    }
}

/// The PRACK store.
pub struct Pracks;

impl Kind for Pracks {
    type Call = Call;
    type Book = Book;

    const OPERATIONS: &'static [Entry] = &[
        entry(
            REGISTER,
            "Rust PrackValidator::register_reliable_provisional, the run's clock",
            &[0, 1, 3, 18, 28],
        ),
        entry(
            VALIDATE,
            "Rust PrackValidator::validate_prack, the run's clock",
            &[0, 1, 2, 3, 18, 19, 20, 21, 22, 23, 24],
        ),
        entry(IS_PRACKED, "Rust PrackValidator::is_pracked", &[0, 1, 3]),
        entry(
            GET_PENDING,
            "Rust PrackValidator::get_pending, the run's clock",
            &[0, 1, 3, 18],
        ),
        entry(REMOVE_DIALOG, "Rust PrackValidator::remove_dialog", &[0, 1, 3]),
        entry(REMOVE_PRACKED, "Rust PrackValidator::remove_pracked", &[0, 1, 3]),
    ];

    fn name(call: &Call) -> &'static str {
        call.name()
    }

    fn texts(call: &Call) -> Vec<(&'static str, &[u8])> {
        call.texts()
    }

    fn arguments(call: &Call) -> Vec<String> {
        match &call.action {
            Action::Validate { time, .. } => vec![format!("time {time}")],
            other => vec![format!("{other:?}")],
        }
    }

    fn widest(call: &Call) -> [u64; 3] {
        let [number, byte] = [u64::from(u32::MAX), u64::from(u8::MAX)];
        match call.action {
            Action::Validate { .. } => [number, number, byte],
            Action::IsPracked { .. } => [byte; 3],
            _ => [u64::MAX; 3],
        }
    }

    fn output(call: &Call) -> usize {
        match call.action {
            Action::GetPending { room, .. } => room,
            _ => 0,
        }
    }

    fn book(bytes: &[u8], _: [u64; 2], settings: Settings) -> Option<Book> {
        Book::of_bytes(bytes, settings)
    }

    fn used(book: &Book) -> usize {
        book.used()
    }

    fn used_after(book: &Book, call: &Call) -> usize {
        book.used_after(call)
    }

    fn meet_site(name: &'static str, book: &Result<Book, Damage>, call: &Call) {
        meet::at_site(name, book, call);
    }

    fn expect(book: &mut Result<Book, Damage>, call: &Call, lent: usize, left: &mut Left) {
        expect(book, call, lent, left);
    }

    fn ask(call: &Call, lent: usize, left: &mut Left) {
        ask(call, lent, left);
    }
}
