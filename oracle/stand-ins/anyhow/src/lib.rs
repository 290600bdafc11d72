//! Stand-in for `anyhow`: an error is its message. The run tells the Rust's PRACK refusals apart by these texts.

use std::fmt;

/// One message.
pub struct Error(pub String);

/// As in `anyhow`: the error type may be left out.
pub type Result<T, E = Error> = std::result::Result<T, E>;

impl fmt::Debug for Error {
    fn fmt(&self, f: &mut fmt::Formatter<'_>) -> fmt::Result {
        f.write_str(&self.0)
    }
}

impl fmt::Display for Error {
    fn fmt(&self, f: &mut fmt::Formatter<'_>) -> fmt::Result {
        f.write_str(&self.0)
    }
}

/// An error made of a formatted message.
#[macro_export]
macro_rules! anyhow {
    ($($part:tt)*) => {
        $crate::Error(format!($($part)*))
    };
}
