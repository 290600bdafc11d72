//! Stand-in for `std`: the real one, but `time::Instant` reads the run's clock (document 01, "Rust forms that give
//! way"). The crate `sip_dialog` depends on this package under the name `std`.

pub use std::*;

pub mod time {
    pub use std::time::*;

    use std::cell::Cell;

    thread_local! {
        static NOW: Cell<u64> = const { Cell::new(0) };
        static NEXT: Cell<Option<u64>> = const { Cell::new(None) };
    }

    /// Sets the time, in nanoseconds.
    pub fn set_clock(nanoseconds: u64) {
        NOW.set(nanoseconds);
    }

    /// The next reading gives this time; those after it, the one that was set.
    pub fn set_next_reading(nanoseconds: u64) {
        NEXT.set(Some(nanoseconds));
    }

    /// A time of the run's clock, in nanoseconds.
    #[derive(Debug, Clone, Copy, PartialEq, Eq, PartialOrd, Ord, Hash)]
    pub struct Instant(u64);

    impl Instant {
        /// The time that was set last, or once the one set for the next reading.
        pub fn now() -> Self {
            Instant(NEXT.take().unwrap_or(NOW.get()))
        }

        /// As the real one since Rust 1.60: zero where the clock went back.
        pub fn duration_since(&self, earlier: Instant) -> Duration {
            Duration::from_nanos(self.0.saturating_sub(earlier.0))
        }
    }
}
