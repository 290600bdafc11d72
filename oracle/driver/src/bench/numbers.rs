//! Calls on PRACK and RSeq stores of N dialogs, timed as those on a store of records, beside the Rust's `PrackValidator` and
//! `RSeqManager` with the same contents. What both have in common.

use super::tables::{timed, Plan};
use super::{pracks, rseqs};
use port::store::Store;
use std::time::Duration;

/// How many dialogs the store has.
pub const SIZES: [usize; 5] = [1, 10, 100, 1000, 10_000];

/// What the stores hold.
pub const THINGS: &str = "dialogs";

/// Times every call on the two stores.
pub fn numbers(plan: &Plan) {
    if let Plan::Times = plan {
        println!("\nPRACK and RSeq stores. Each dialog has one response that waits, or one RSeq number; both sides are asked for");
        println!(
            "the dialog in the middle. The Rust has the run's clock and number source, and the stand-in of `dashmap`."
        );
    }
    pracks::pracks(plan);
    rseqs::rseqs(plan);
}

/// Room for one more entry or response.
pub const ROOM: usize = 200;

/// The three texts of the `number`th dialog.
pub fn texts(number: usize) -> [String; 3] {
    [
        format!("{number:08}@pc33.example.org"),
        "a6c85cf".to_string(),
        "1928301774".to_string(),
    ]
}

/// The time of a call of the port on a copy of a store.
pub fn ported(before: &[u8], used: usize, bytes: &mut [u8], call: impl FnOnce(Store) -> u8) -> Duration {
    bytes.copy_from_slice(before);
    let mut used = used;
    let lent = Store { bytes, used: &mut used };
    timed(|| assert_eq!(call(lent), 0, "accepted"))
}
