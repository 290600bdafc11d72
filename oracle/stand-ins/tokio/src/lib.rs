//! Stand-in for `tokio`: just enough for session_timer_manager.rs to compile. Timer tasks are out of scope, so a
//! spawned task is dropped without running and no channel carries anything.

/// Drops the task.
pub fn spawn<F: std::future::Future + 'static>(task: F) {
    drop(task);
}

/// Keeps the arms of `select!` from running.
pub fn never() -> bool {
    false
}

/// Type-checks its arms and runs none of them.
#[macro_export]
macro_rules! select {
    ($($pattern:pat = $future:expr => $body:block)*) => {{
        $(
            if $crate::never() {
                let $pattern = $future.await;
                $body
            }
        )*
    }};
}

pub mod time {
    use std::ops::{Add, Sub};
    use std::time::Duration;

    /// A time that never moves.
    #[derive(Debug, Clone, Copy, PartialEq, Eq, PartialOrd, Ord)]
    pub struct Instant(Duration);

    impl Instant {
        /// Time 0.
        pub fn now() -> Self {
            Instant(Duration::ZERO)
        }
    }

    impl Add<Duration> for Instant {
        type Output = Instant;

        fn add(self, later: Duration) -> Instant {
            Instant(self.0 + later)
        }
    }

    impl Sub for Instant {
        type Output = Duration;

        fn sub(self, earlier: Instant) -> Duration {
            self.0.saturating_sub(earlier.0)
        }
    }

    /// Returns at once.
    pub async fn sleep(_: Duration) {}
}

pub mod sync {
    use std::sync::MutexGuard;

    /// The standard library's lock behind tokio's face.
    pub struct Mutex<T>(std::sync::Mutex<T>);

    impl<T> Mutex<T> {
        /// A free lock.
        pub fn new(value: T) -> Self {
            Mutex(std::sync::Mutex::new(value))
        }

        /// Takes the lock.
        pub async fn lock(&self) -> MutexGuard<'_, T> {
            self.0.lock().expect("one thread")
        }
    }

    pub mod mpsc {
        use std::marker::PhantomData;

        #[derive(Debug)]
        pub struct Sender<T>(PhantomData<T>);
        pub struct Receiver<T>(PhantomData<T>);
        pub struct UnboundedSender<T>(PhantomData<T>);
        pub struct UnboundedReceiver<T>(PhantomData<T>);

        /// No channel here is ever closed.
        #[derive(Debug)]
        pub struct Closed;

        impl<T> Sender<T> {
            /// Drops the message.
            pub fn try_send(&self, _: T) -> Result<(), Closed> {
                Ok(())
            }
        }

        impl<T> Receiver<T> {
            /// Brings nothing.
            pub async fn recv(&mut self) -> Option<T> {
                None
            }
        }

        impl<T> UnboundedSender<T> {
            /// Drops the message.
            pub fn send(&self, _: T) -> Result<(), Closed> {
                Ok(())
            }
        }

        /// A channel that carries nothing.
        pub fn channel<T>(_: usize) -> (Sender<T>, Receiver<T>) {
            (Sender(PhantomData), Receiver(PhantomData))
        }

        /// A channel that carries nothing.
        pub fn unbounded_channel<T>() -> (UnboundedSender<T>, UnboundedReceiver<T>) {
            (UnboundedSender(PhantomData), UnboundedReceiver(PhantomData))
        }
    }
}
