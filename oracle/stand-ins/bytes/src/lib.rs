//! Stand-in for `bytes`: message bodies are out of scope, so a body is always empty here.

/// A message body.
#[derive(Debug, Clone, PartialEq, Eq, Default)]
pub struct Bytes;

impl Bytes {
    /// The empty body.
    pub fn new() -> Self {
        Bytes
    }

    /// Its length: none.
    pub fn len(&self) -> usize {
        0
    }

    /// Always true.
    pub fn is_empty(&self) -> bool {
        true
    }
}
