//! Mixed lists: the three stores at once, with the same identifiers and one clock. Several lines of a panel go through what a
//! line goes through, each a step at a time, with other calls of every kind in between. Before them, the plain day of one line.

mod faults;
mod leaves;
mod line;
mod list;
mod plain;
mod steps;
mod three;

use crate::all::Everything;
use crate::dialogs;
use crate::operations;
use crate::random::Random;
use crate::run::{Feed, Operation};
use crate::store::run::{each_fault, Run};

pub use faults::{PRACK_FAULTS, RECORD_FAULTS, RSEQ_FAULTS};
pub use list::list;
pub use plain::each as each_plain;

/// Compares so many mixed lists with all their faults put in, each by itself.
pub fn planted(lists: usize, seed: u64) -> Everything {
    let operations = operations::all().into_iter().chain(dialogs::all());
    let feed = |operation: &'static Operation| Feed::new(operation, 0, seed, None);
    let mut everything = Everything {
        feeds: operations.map(feed).collect(),
        records: Run::new(&each_fault(RECORD_FAULTS)),
        rseqs: Run::new(&each_fault(RSEQ_FAULTS)),
        pracks: Run::new(&each_fault(PRACK_FAULTS)),
        verdicts: Run::new(&[]),
    };
    let mut random = Random::new(seed, "mixed");
    each_plain(&mut everything, &mut random);
    for _ in 0..lists {
        list(&mut everything, &mut random);
    }
    everything
}
