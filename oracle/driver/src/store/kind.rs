//! What the kinds of stores have in common: calls with lent bytes, and a book of what the store must hold.

use super::memory::Left;
use crate::record::arguments::Recorded;
use crate::run::Entry;
use port::Settings;

/// How bytes that are no store differ from the store that they were.
pub type Damage = &'static str;

/// A kind of store.
pub trait Kind: Sized + 'static {
    /// A call's own arguments.
    type Call: Recorded;
    /// What the store must hold.
    type Book;

    /// The operations in the order of the C declarations, each with every number that it can answer.
    const OPERATIONS: &'static [Entry];

    /// A call's operation.
    fn name(call: &Self::Call) -> &'static str;

    /// The texts that refusal 1 holds for, each with what it is bounded as.
    fn texts(call: &Self::Call) -> Vec<(&'static str, &[u8])>;

    /// The other arguments, for print.
    fn arguments(call: &Self::Call) -> Vec<String>;

    /// The largest number that fits each of the call's out numbers.
    fn widest(call: &Self::Call) -> [u64; 3];

    /// How many bytes of output it is lent.
    fn output(_: &Self::Call) -> usize {
        0
    }

    /// Whether it is one after which a list counts as updated, if it is taken.
    fn updates(_: &Self::Call) -> bool {
        false
    }

    /// The book of a store handed in, with these counts and settings; nothing where the bytes aren't one.
    fn book(bytes: &[u8], counts: [u64; 2], settings: Settings) -> Option<Self::Book>;

    /// How many bytes the store has, and how many it would have after a call, were there room.
    fn used(book: &Self::Book) -> usize;
    fn used_after(book: &Self::Book, call: &Self::Call) -> usize;

    /// Says what a call meets at another site, by the operation's name there.
    fn meet_site(_: &'static str, _: &Result<Self::Book, Damage>, _: &Self::Call) {}

    /// The expected answer of a call that is lent `lent` bytes. `left` holds what the call is given, and then what it leaves.
    fn expect(book: &mut Result<Self::Book, Damage>, call: &Self::Call, lent: usize, left: &mut Left);

    /// The port's answer, likewise.
    fn ask(call: &Self::Call, lent: usize, left: &mut Left);
}
