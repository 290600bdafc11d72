//! Lists of calls on a run of request verdicts (change request 10), which the Rust has not: after every call its number, every out
//! number, the used length and every byte of the run's memory are held against a count made anew from all verdicts that were given.

mod book;
pub mod call;
mod directed;
mod faults;
mod layout;
pub mod lists;

use crate::random::Random;
use crate::store::run::{Fault, Run};
use call::Verdicts;

pub use directed::{most_calls, over_most};
pub use faults::FAULTS;
pub use layout::ENTRY_SIZE;

/// Compares so many random lists and the directed ones; these faults are put in, each by itself.
pub fn compare_all(lists: usize, seed: u64, faults: &[&'static Fault<Verdicts>]) -> Run<Verdicts> {
    let mut run = Run::new(faults);
    let mut random = Random::new(seed, "verdicts");
    lists::each_broken(&mut run, &mut random);
    directed::each_pair(&mut run, &mut random);
    directed::each_full(&mut run, &mut random);
    for _ in 0..lists {
        lists::list(&mut run, &mut random);
    }
    run
}
