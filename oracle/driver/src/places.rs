//! Where the Rust's answers lie in the caller's bytes. The Rust hands out copies; document 01 asks for the caller's own
//! bytes. These places are the run's own, written from 01, and each is held against the Rust's text: where they
//! disagree, the run itself is at fault and stops.

use sip_core::block::{self, Line};
use sip_core::SipUri;
use std::ops::Range;

/// The lines of that name in either spelling, letter case ignored. The block is known to be valid.
pub fn lines(bytes: &[u8], name: &[u8]) -> Vec<Line> {
    let asked = full_name(name);
    let mut lines = block::lines(bytes).expect("a valid block");
    lines.retain(|line| full_name(&bytes[line.name.clone()]) == asked);
    lines
}

/// The full spelling of a name (document 02, request 1), in small letters.
fn full_name(name: &[u8]) -> Vec<u8> {
    let name = name.to_ascii_lowercase();
    match name.as_slice() {
        b"i" => b"call-id".to_vec(),
        b"f" => b"from".to_vec(),
        b"t" => b"to".to_vec(),
        b"m" => b"contact".to_vec(),
        b"x" => b"session-expires".to_vec(),
        _ => name,
    }
}

/// The value of the first line of that name.
pub fn first_value(bytes: &[u8], name: &[u8]) -> Option<Range<usize>> {
    lines(bytes, name).into_iter().next().map(|line| line.value)
}

/// The URI's text in the value at `at`: between the first `<` and the next `>`, without `<` up to `;`; trimmed, and
/// readable.
pub fn uri(bytes: &[u8], at: Range<usize>) -> Option<Range<usize>> {
    let find = |byte: u8, from: usize| (from..at.end).find(|place| bytes[*place] == byte);
    let range = match find(b'<', at.start) {
        Some(open) => open + 1..find(b'>', open)?,
        None => at.start..find(b';', at.start).unwrap_or(at.end),
    };
    let range = trim(bytes, range);
    let text = std::str::from_utf8(&bytes[range.clone()]).ok()?;
    SipUri::parse(text).is_ok().then_some(range)
}

/// The non-empty comma parts of the value at `at`, each with the place just after the comma that ends it (one past the
/// value's end for the last). Commas in quotes or in angle brackets don't cut; brackets count in quotes too.
pub fn parts(bytes: &[u8], at: Range<usize>) -> Vec<(Range<usize>, usize)> {
    let mut parts = Vec::new();
    let mut quoted = false;
    let mut depth = 0_usize;
    let mut start = at.start;
    for place in at.start..=at.end {
        let byte = if place < at.end { bytes[place] } else { b',' };
        match byte {
            b'"' => quoted = !quoted,
            b'<' => depth += 1,
            b'>' => depth = depth.saturating_sub(1),
            _ => {}
        }
        if place == at.end || (byte == b',' && !quoted && depth == 0) {
            parts.push((trim(bytes, start..place), place + 1));
            start = place + 1;
        }
    }
    parts.retain(|(part, _)| !part.is_empty());
    parts
}

/// The readable URIs of all Record-Route lines, in order, grouped by line.
pub fn routes_by_line(bytes: &[u8]) -> Vec<Vec<Range<usize>>> {
    let of_line = |line: Line| {
        let parts = parts(bytes, line.value).into_iter();
        parts.filter_map(|(part, _)| uri(bytes, part)).collect()
    };
    lines(bytes, b"Record-Route").into_iter().map(of_line).collect()
}

/// Holds a place against the Rust's text; they must say the same.
pub fn held(bytes: &[u8], place: Option<Range<usize>>, text: Option<&str>) -> Option<Range<usize>> {
    let here = place.clone().map(|range| &bytes[range]);
    let same = here == text.map(str::as_bytes);
    assert!(same, "the run's place {place:?} isn't the Rust's text {text:?}");
    place
}

/// A part without the spaces and tabs at its ends.
pub fn trim(bytes: &[u8], part: Range<usize>) -> Range<usize> {
    let is_text = |place: &usize| !matches!(bytes[*place], b' ' | b'\t');
    let start = part.clone().find(is_text).unwrap_or(part.end);
    let end = part.clone().rfind(is_text).map_or(start, |last| last + 1);
    start..end
}
