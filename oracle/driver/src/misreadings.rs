//! Wrong readings of a From or To value, for planted faults.

use crate::tags::{close_of_quotes, Reading, REQUEST_3};

/// An escape that never ends.
pub const ENDLESS_ESCAPE: Reading = Reading {
    quotes: |value, open| {
        let close = close_of_quotes(value, open);
        match value[open..close].contains(&b'\\') {
            true => value.len(),
            false => close,
        }
    },
    ..REQUEST_3
};

/// A bracket that a quote closes too.
pub const CLOSED_BY_QUOTE: Reading = Reading {
    brackets: |value, open| {
        let length = value[open..].iter().position(|byte| matches!(byte, b'>' | b'"'));
        length.map_or(value.len(), |length| open + length)
    },
    ..REQUEST_3
};

/// Brackets that nest.
pub const NESTED: Reading = Reading {
    brackets: |value, open| {
        let mut depth = 0;
        for (place, byte) in value.iter().enumerate().skip(open) {
            match byte {
                b'<' => depth += 1,
                b'>' => depth -= 1,
                _ => {}
            }
            if depth == 0 {
                return place;
            }
        }
        value.len()
    },
    ..REQUEST_3
};

/// A quote that ends at the end of a segment: the first semicolon in it cuts.
pub const ENDED_BY_SEGMENT: Reading = Reading {
    quotes: |value, open| {
        let close = close_of_quotes(value, open);
        let length = value[open..close].iter().position(|byte| *byte == b';');
        length.map_or(close, |length| open + length - 1)
    },
    ..REQUEST_3
};

/// Every semicolon cuts, as in the Rust.
pub const EVERY_SEMICOLON: Reading = Reading {
    quotes: |_, open| open,
    brackets: |_, open| open,
};
