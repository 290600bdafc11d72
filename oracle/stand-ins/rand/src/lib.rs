//! Stand-in for `rand`: the number source is in the run's hands (document 01, "Rust forms that give way").

use std::cell::Cell;

thread_local! {
    static NEXT: Cell<u32> = const { Cell::new(0) };
    static TAKEN: Cell<u64> = const { Cell::new(0) };
}

/// Sets the number that the Rust draws from now on.
pub fn set_next(number: u32) {
    NEXT.set(number);
}

/// How many numbers the Rust has drawn.
pub fn taken() -> u64 {
    TAKEN.get()
}

pub mod rngs {
    /// The operating system's source in `rand`; here it gives the run's number.
    pub struct SysRng;
}

/// The trait through which lib.rs draws a number.
pub trait TryRng {
    type Error: std::fmt::Debug;

    fn try_next_u32(&mut self) -> Result<u32, Self::Error>;
}

impl TryRng for rngs::SysRng {
    type Error = ();

    fn try_next_u32(&mut self) -> Result<u32, ()> {
        TAKEN.set(TAKEN.get() + 1);
        Ok(NEXT.get())
    }
}
