//! Lists of calls on a store of records, compared with the Rust's `DialogManager`: after every call its number, every out
//! number, every byte of the store's memory, and the two counts.

pub mod ask;
pub mod book;
pub mod call;
pub mod calls;
mod damage;
pub mod describe;
pub mod dialogs;
pub mod directed;
pub mod entries;
pub mod expect;
mod faults;
pub mod given;
pub mod kind;
pub mod lists;
pub mod memory;
pub mod order;
pub mod run;
mod rust;

use crate::random::Random;
use dialogs::Dialogs;
use run::{Fault, Run};

pub use faults::FAULTS;

/// Compares so many random lists and the directed ones; these faults are put in, each by itself.
pub fn compare_all(lists: usize, seed: u64, faults: &[&'static Fault<Dialogs>]) -> Run<Dialogs> {
    let mut run = Run::new(faults);
    let mut random = Random::new(seed, "store");
    order::each(&mut run, &mut random);
    lists::each_broken(&mut run, &mut random);
    directed::at_most_early(&mut run, &mut random);
    directed::at_most_records(&mut run, &mut random);
    directed::too_many_routes(&mut run, &mut random);
    for _ in 0..lists {
        lists::list(&mut run, &mut random);
    }
    run
}
