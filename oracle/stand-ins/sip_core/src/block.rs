//! Stand-in written from document 01, "Block": lines `name:value` CRLF; names of letters, digits and `-`, at least one;
//! values of bytes 9 and 32 to 126, space and tab trimmed at both ends. An empty block is valid.

use std::ops::Range;

/// Where one line's name and trimmed value lie in the block, and where the line starts and ends (after its CRLF).
#[derive(Debug, Clone, PartialEq, Eq)]
pub struct Line {
    pub name: Range<usize>,
    pub value: Range<usize>,
    pub whole: Range<usize>,
}

/// The lines of a block in order, or nothing if the bytes are not of that form.
pub fn lines(block: &[u8]) -> Option<Vec<Line>> {
    let mut lines = Vec::new();
    let mut start = 0;
    while start < block.len() {
        let line = line(block, start)?;
        start = line.whole.end;
        lines.push(line);
    }
    Some(lines)
}

/// Whether a value may hold this byte.
pub fn is_value_byte(byte: u8) -> bool {
    byte == b'\t' || (b' '..=b'~').contains(&byte)
}

/// The line that starts at `start`: up to the first CRLF, cut at the first colon.
fn line(block: &[u8], start: usize) -> Option<Line> {
    let rest = &block[start..];
    let end = start + rest.windows(2).position(|pair| pair == b"\r\n")?;
    let colon = start + rest.iter().position(|byte| *byte == b':')?;
    if colon >= end {
        return None;
    }
    let name = &block[start..colon];
    let is_name_byte = |byte: &u8| byte.is_ascii_alphanumeric() || *byte == b'-';
    if name.is_empty() || !name.iter().all(is_name_byte) {
        return None;
    }
    if !block[colon + 1..end].iter().copied().all(is_value_byte) {
        return None;
    }
    Some(Line {
        name: start..colon,
        value: trimmed(block, colon + 1..end),
        whole: start..end + 2,
    })
}

/// A part without the spaces and tabs at its two ends; a part of blanks alone shrinks to its end.
fn trimmed(block: &[u8], part: Range<usize>) -> Range<usize> {
    let is_blank = |byte: u8| byte == b' ' || byte == b'\t';
    let mut range = part;
    while !range.is_empty() && is_blank(block[range.start]) {
        range.start += 1;
    }
    while !range.is_empty() && is_blank(block[range.end - 1]) {
        range.end -= 1;
    }
    range
}
