//! Stand-in for `smol_str`: an immutable text.

use std::fmt;
use std::ops::Deref;

/// A text on the heap. The real one keeps short texts in place and shares long ones.
#[derive(Clone, PartialEq, Eq, PartialOrd, Ord, Hash, Default)]
pub struct SmolStr(Box<str>);

impl SmolStr {
    /// A copy of `text`.
    pub fn new(text: impl AsRef<str>) -> Self {
        SmolStr(text.as_ref().into())
    }

    /// The text.
    pub fn as_str(&self) -> &str {
        &self.0
    }
}

impl Deref for SmolStr {
    type Target = str;

    fn deref(&self) -> &str {
        &self.0
    }
}

impl From<&str> for SmolStr {
    fn from(text: &str) -> Self {
        SmolStr(text.into())
    }
}

impl From<String> for SmolStr {
    fn from(text: String) -> Self {
        SmolStr(text.into())
    }
}

impl fmt::Debug for SmolStr {
    fn fmt(&self, f: &mut fmt::Formatter<'_>) -> fmt::Result {
        fmt::Debug::fmt(self.as_str(), f)
    }
}

impl fmt::Display for SmolStr {
    fn fmt(&self, f: &mut fmt::Formatter<'_>) -> fmt::Result {
        f.write_str(self.as_str())
    }
}
