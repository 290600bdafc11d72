//! The C functions on a run of verdicts.

use crate::c;
use crate::store::Store;

/// Adds a verdict at the end.
pub fn add(time: u64, number: u8, run: Store) -> u8 {
    unsafe { c::sip_dialog_add_verdict(time, number, run.bytes.as_mut_ptr(), run.bytes.len(), run.used) }
}

/// The most refusals in 60 s, whether there is a start, and the earliest that has them.
pub fn worst_minute(run: &[u8], used: usize, refusals: &mut usize, found: &mut u8, start: &mut u64) -> u8 {
    unsafe { c::sip_dialog_worst_minute(run.as_ptr(), run.len(), used, refusals, found, start) }
}
