//! The bounds at which the two sides could part, and how often each side of each was met. The expected side says what it
//! meets, from the values that it reads; a bound that is met too seldom fails the run.

mod table;

use crate::record;
use std::cell::{Cell, RefCell};
use std::collections::HashMap;
use table::BOUNDS;

/// Each side of a bound must be met at least this often.
const LEAST_AT_BOUND: u64 = 20;

/// For these operations, what is bounded, and the values or cases on the sides of the bound.
type Bound = (&'static [&'static str], &'static str, &'static [&'static str]);

/// An operation and what is bounded.
type Key = (&'static str, &'static str);

thread_local! {
    static MET: RefCell<HashMap<Key, Vec<(&'static str, u64)>>> = RefCell::new(empty());
    static QUIET: Cell<bool> = const { Cell::new(false) };
}

/// No bound met yet.
fn empty() -> HashMap<Key, Vec<(&'static str, u64)>> {
    let mut met: HashMap<Key, Vec<_>> = HashMap::new();
    for (operations, what, sides) in BOUNDS {
        for operation in *operations {
            let sides = sides.iter().map(|side| (*side, 0));
            met.entry((operation, what)).or_default().extend(sides);
        }
    }
    met
}

/// Says that an operation met a case; nothing is counted where it is none of the listed.
pub fn met(operation: &'static str, what: &'static str, side: &str) {
    if QUIET.get() {
        return;
    }
    MET.with_borrow_mut(|met| {
        let sides = met.get_mut(&(operation, what)).expect("a listed bound");
        for (listed, count) in sides.iter_mut().filter(|(listed, _)| *listed == side) {
            *count += 1;
            record::met(operation, what, listed);
        }
    });
}

/// Says that an operation met a number.
pub fn number(operation: &'static str, what: &'static str, number: impl std::fmt::Display) {
    if !QUIET.get() {
        met(operation, what, &number.to_string());
    }
}

/// Says by how much one number is above another.
pub fn above(operation: &'static str, what: &'static str, number: u64, other: u64) {
    self::number(operation, what, i128::from(number) - i128::from(other));
}

/// Says how a result compares with its lent bytes.
pub fn room(operation: &'static str, result: usize, lent: usize) {
    let side = match result as i64 - lent as i64 {
        -1 => "one byte less than lent",
        0 => "as large as lent",
        1 => "one byte more than lent",
        _ => return,
    };
    met(operation, "result", side);
}

/// Works without counting, for calls that are only made ready.
pub fn quietly<T>(work: impl FnOnce() -> T) -> T {
    let before = QUIET.replace(true);
    let result = work();
    QUIET.set(before);
    result
}

/// Counts within such work.
pub fn aloud(work: impl FnOnce()) {
    let before = QUIET.replace(false);
    work();
    QUIET.set(before);
}

/// Each side of each bound, with its operation and what is bounded.
pub fn sides() -> impl Iterator<Item = (&'static str, &'static str, &'static str)> {
    let of_bound = |(operations, what, sides): &'static Bound| {
        let of_operation = |operation: &'static &'static str| sides.iter().map(|side| (*operation, *what, *side));
        operations.iter().flat_map(of_operation)
    };
    BOUNDS.iter().flat_map(of_bound)
}

/// Prints how often each side of each bound of these operations was met; answers what was met too seldom.
pub fn print(shown: &[&str]) -> Vec<String> {
    let mut missed = Vec::new();
    let mut head = format!("\n{:<30} {:<30} how often each side was met\n", "operation", "bound");
    for (operations, what, sides) in BOUNDS {
        for operation in operations.iter().filter(|operation| shown.contains(operation)) {
            print!("{}", std::mem::take(&mut head));
            let counts = counts(operation, what, sides);
            let texts: Vec<String> = counts.iter().map(|(side, count)| format!("{side}: {count}")).collect();
            println!("{operation:<30} {what:<30} {}", texts.join(", "));
            for (side, count) in counts.iter().filter(|(_, count)| *count < LEAST_AT_BOUND) {
                missed.push(format!(
                    "{operation}, {what}, {side}: met {count} times, {LEAST_AT_BOUND} are owed"
                ));
            }
        }
    }
    missed
}

/// How often each of these sides was met.
fn counts(operation: &'static str, what: &'static str, sides: &[&str]) -> Vec<(&'static str, u64)> {
    MET.with_borrow(|met| {
        let counts = met[&(operation, what)].iter().copied();
        counts.filter(|(side, _)| sides.contains(side)).collect()
    })
}
