//! Lists of calls on a PRACK store, compared with the Rust's `PrackValidator`: after every call its number, every out number,
//! the lent output, the used length and every byte of the store's memory.

mod ask;
mod book;
pub mod call;
pub mod calls;
mod damage;
pub mod directed;
mod expect;
mod faults;
pub mod layout;
pub mod lists;
mod meet;
pub mod order;
mod rust;
pub mod steps;

use crate::random::Random;
use crate::store::run::{Fault, Run};
use call::Pracks;

pub use faults::FAULTS;

/// Compares so many random lists and the directed ones; these faults are put in, each by itself.
pub fn compare_all(lists: usize, seed: u64, faults: &[&'static Fault<Pracks>]) -> Run<Pracks> {
    let mut run = Run::new(faults);
    let mut random = Random::new(seed, "prack");
    order::each(&mut run, &mut random);
    lists::each_broken(&mut run, &mut random);
    directed::each(&mut run, &mut random);
    for _ in 0..lists {
        lists::list(&mut run, &mut random);
    }
    run
}
