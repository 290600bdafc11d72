//! Identifier texts of any bytes, as the Rust is given them. Its texts are UTF-8, and all that it asks of an identifier is
//! whether it is another one's equal: other bytes go in as a text of their own, so that two texts are equal exactly if the
//! bytes are.

/// Begins the text that the Rust is given for bytes that it can't be given.
const OTHER: char = char::MAX;

/// The text for some bytes: they themselves where they are UTF-8, otherwise `OTHER` and a letter for each byte.
pub fn text_of(bytes: &[u8]) -> String {
    match std::str::from_utf8(bytes) {
        Ok(text) if !text.starts_with(OTHER) => text.to_string(),
        _ => [OTHER]
            .into_iter()
            .chain(bytes.iter().map(|byte| char::from(*byte)))
            .collect(),
    }
}

/// The bytes that such a text is for.
pub fn bytes_of(text: &str) -> Vec<u8> {
    match text.strip_prefix(OTHER) {
        None => text.as_bytes().to_vec(),
        Some(letters) => letters
            .chars()
            .map(|letter| u8::try_from(letter).expect("a byte"))
            .collect(),
    }
}

/// What the tables say of bytes that the Rust is given as they are.
pub const AS_IS: &str = "UTF-8";

/// What they say of any bytes.
pub fn kind_of(bytes: &[u8]) -> &'static str {
    if text_of(bytes).starts_with(OTHER) {
        "other bytes"
    } else {
        AS_IS
    }
}
