//! Document 01's refusals 1 and 2, which the Rust doesn't have: they stand in front of each function of the Rust.

use sip_core::{block, Headers};

/// The longest text or block.
pub const LONGEST: usize = 8192;

/// The longest store of a listing, and its operation.
pub const LONGEST_LISTED: usize = 65_536;
pub const LISTING: &str = "listing";

/// The longest text that an operation reads.
pub fn longest_of(operation: &str) -> usize {
    match operation.split(',').next() {
        Some(LISTING) => LONGEST_LISTED,
        _ => LONGEST,
    }
}

/// Refusal 1 for any of the given texts.
pub fn limit(texts: &[&[u8]]) -> Result<(), u8> {
    let fits = texts.iter().all(|text| text.len() <= LONGEST);
    fits.then_some(()).ok_or(1)
}

/// A value given alone, as text: 1, then 2.
pub fn value(value: &[u8]) -> Result<&str, u8> {
    limit(&[value])?;
    if !value.iter().copied().all(block::is_value_byte) {
        return Err(2);
    }
    std::str::from_utf8(value).map_err(|_| 2)
}

/// A header block, read: 1, then 2.
pub fn headers(bytes: &[u8]) -> Result<Headers, u8> {
    limit(&[bytes])?;
    Headers::parse(bytes).ok_or(2)
}
