//! A line of the list as text: numbers in decimal, bytes in quotes, a run of one byte as how often it stands.

/// A run of at least so many equal bytes is written as one.
const LEAST_RUN: usize = 12;

/// Bytes as a text: quoted parts that are joined, as in 300*"\xa5""abc".
pub fn text(bytes: &[u8]) -> String {
    let mut parts = String::new();
    let mut plain: &[u8] = &[];
    let mut rest = bytes;
    while let Some(first) = rest.first() {
        let run = rest.iter().take_while(|byte| *byte == first).count();
        if run >= LEAST_RUN {
            push(&mut parts, plain);
            parts += &format!("{run}*{}", quoted(&[*first]));
            rest = &rest[run..];
            plain = &[];
        } else {
            let start = bytes.len() - rest.len() - plain.len();
            rest = &rest[run..];
            plain = &bytes[start..bytes.len() - rest.len()];
        }
    }
    push(&mut parts, plain);
    if parts.is_empty() {
        parts += "\"\"";
    }
    parts
}

/// Puts a part behind others, if it isn't empty.
fn push(parts: &mut String, plain: &[u8]) {
    if !plain.is_empty() {
        *parts += &quoted(plain);
    }
}

/// Bytes in quotes.
fn quoted(bytes: &[u8]) -> String {
    let letter = |byte: &u8| match byte {
        b'\r' => "\\r".to_string(),
        b'\n' => "\\n".to_string(),
        b'"' => "\\\"".to_string(),
        b'\\' => "\\\\".to_string(),
        32..=126 => char::from(*byte).to_string(),
        _ => format!("\\x{byte:02x}"),
    };
    format!("\"{}\"", bytes.iter().map(letter).collect::<String>())
}

/// About how long a text is in the list.
pub fn length(bytes: &[u8]) -> usize {
    let mut sum = 2;
    let mut run = 0;
    for (at, byte) in bytes.iter().enumerate() {
        run = if at > 0 && bytes[at - 1] == *byte { run + 1 } else { 1 };
        sum += if run > LEAST_RUN {
            0
        } else if (32..127).contains(byte) {
            1
        } else {
            4
        };
    }
    sum
}
