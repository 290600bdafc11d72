//! Lists of calls on an RSeq store, compared with the Rust's `RSeqManager`: after every call its number, every out number, the
//! used length and every byte of the store's memory.

mod ask;
mod book;
pub mod call;
pub mod calls;
mod damage;
mod directed;
mod expect;
mod faults;
pub mod layout;
pub mod lists;
mod order;

use crate::random::Random;
use crate::store::run::{Fault, Run};
use call::RSeqs;

pub use calls::TEXTS;
pub use faults::FAULTS;

/// Compares so many random lists and the directed ones; these faults are put in, each by itself.
pub fn compare_all(lists: usize, seed: u64, faults: &[&'static Fault<RSeqs>]) -> Run<RSeqs> {
    let mut run = Run::new(faults);
    let mut random = Random::new(seed, "rseq");
    order::each(&mut run, &mut random);
    lists::each_broken(&mut run, &mut random);
    directed::each_pair(&mut run, &mut random);
    directed::each_number(&mut run, &mut random);
    directed::each_history(&mut run, &mut random);
    directed::each_long_text(&mut run, &mut random);
    for _ in 0..lists {
        lists::list(&mut run, &mut random);
    }
    run
}
