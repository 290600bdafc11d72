//! The port's operations, each with what it is held against, its calls and its planted fault. One file per module of
//! the Rust, or per kind of value.

mod contests;
mod identifiers;
mod metrics;
mod msg;
mod numbers;
mod status;
mod timers;
mod uri;
pub mod values;

use crate::answer::{Answer, Input, Out, Width};
use crate::run::{compare_each, Feed, Operation};

pub use identifiers::FAULTS;

/// All operations, in the order of the C declarations.
pub fn all() -> Vec<&'static Operation> {
    let files: [&'static [Operation]; 9] = [
        msg::OPERATIONS,
        status::OPERATIONS,
        uri::OPERATIONS,
        identifiers::OPERATIONS,
        values::OPERATIONS,
        numbers::OPERATIONS,
        timers::OPERATIONS,
        metrics::OPERATIONS,
        contests::OPERATIONS,
    ];
    files.into_iter().flatten().collect()
}

/// Compares all of them. `planted` says which have their fault put in, and which other faults are.
pub fn compare_all(calls: usize, seed: u64, planted: impl Fn(&str) -> bool) -> Vec<Feed<'static>> {
    compare_each(all(), FAULTS, calls, seed, planted)
}

/// The out numbers of an operation that may find a part.
pub const PART: &[Out] = &[("found", Width::U8), ("place", Width::U64), ("length", Width::U64)];

/// The out numbers of an identifier: places and lengths of its three parts.
pub const ID_PARTS: &[Out] = &[
    ("Call-ID", Width::U64),
    ("Call-ID length", Width::U64),
    ("local tag", Width::U64),
    ("local tag length", Width::U64),
    ("remote tag", Width::U64),
    ("remote tag length", Width::U64),
];

/// The out numbers of one step of a list.
const LIST_PART: &[Out] = &[
    ("found", Width::U8),
    ("place", Width::U64),
    ("length", Width::U64),
    ("next", Width::U64),
];

/// The answer of an operation that says yes or no.
pub const YES: &[Out] = &[("yes", Width::U8)];

/// The out numbers of a part, to lend.
pub fn lent_part(answer: &Answer) -> port::Part {
    port::Part {
        found: answer.outs[0] as u8,
        place: answer.outs[1] as usize,
        length: answer.outs[2] as usize,
    }
}

/// Takes the lent numbers back.
pub fn take_part(answer: &mut Answer, part: port::Part) {
    answer.outs[0] = u64::from(part.found);
    answer.outs[1] = part.place as u64;
    answer.outs[2] = part.length as u64;
}

/// The port's three places and their lengths.
pub fn ask_places(input: &Input, answer: &mut Answer, function: impl FnOnce(&[u8], &mut [usize; 6]) -> u8) -> u8 {
    let mut parts: [usize; 6] = std::array::from_fn(|index| answer.outs[index] as usize);
    let number = function(input.texts[0], &mut parts);
    for (out, part) in answer.outs.iter_mut().zip(parts) {
        *out = part as u64;
    }
    number
}

/// The out numbers of a step, to lend.
fn lent_list_part(answer: &Answer) -> port::ListPart {
    port::ListPart {
        found: answer.outs[0] as u8,
        place: answer.outs[1] as usize,
        length: answer.outs[2] as usize,
        next: answer.outs[3] as usize,
    }
}
