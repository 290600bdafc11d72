//! Stand-in for `parking_lot`: the standard library's locks. The run has one thread.

use std::sync::{self, MutexGuard, RwLockReadGuard, RwLockWriteGuard};

/// A lock for one holder.
#[derive(Debug, Default)]
pub struct Mutex<T>(sync::Mutex<T>);

impl<T> Mutex<T> {
    /// A free lock around `value`.
    pub fn new(value: T) -> Self {
        Mutex(sync::Mutex::new(value))
    }

    /// Takes the lock.
    pub fn lock(&self) -> MutexGuard<'_, T> {
        self.0.lock().expect("one thread")
    }
}

/// A lock for readers or one writer.
#[derive(Debug, Default)]
pub struct RwLock<T>(sync::RwLock<T>);

impl<T> RwLock<T> {
    /// Takes the lock to read.
    pub fn read(&self) -> RwLockReadGuard<'_, T> {
        self.0.read().expect("one thread")
    }

    /// Takes the lock to write.
    pub fn write(&self) -> RwLockWriteGuard<'_, T> {
        self.0.write().expect("one thread")
    }
}
