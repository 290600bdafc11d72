//! Stand-in for `tracing`: logging is out of scope. The arguments are checked and nothing is written.

/// Formats nothing.
#[macro_export]
macro_rules! debug {
    ($($part:tt)*) => {
        if false {
            let _ = format!($($part)*);
        }
    };
}
