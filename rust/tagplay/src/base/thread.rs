//! Threads that end within a scope.

pub use crate::base::rights::Threads;
pub use std::thread::yield_now;

use std::panic::resume_unwind;
use std::thread::{Builder, ScopedJoinHandle};

/// What starts threads that end with it.
pub struct Scope<'s, 'e>(&'s std::thread::Scope<'s, 'e>);

/// A thread that was started.
pub struct Started<'s, T>(ScopedJoinHandle<'s, T>);

/// Runs this with a scope, and returns when all threads of the scope have ended.
pub fn scope<'e, T>(run: impl for<'s> FnOnce(&Scope<'s, 'e>) -> T) -> T {
    std::thread::scope(|scope| run(&Scope(scope)))
}

impl<'s> Scope<'s, '_> {
    /// Starts a thread, if the system has one.
    pub fn spawn<T: Send + 's>(&self, part: impl FnOnce() -> T + Send + 's) -> std::io::Result<Started<'s, T>> {
        Builder::new().spawn_scoped(self.0, part).map(Started)
    }
}

impl<T> Started<'_, T> {
    /// Waits for the end of the thread, and passes on its panic, which only a fault of this base could bring about.
    pub fn join<R: Threads>(self, _: &R) -> T {
        self.0.join().unwrap_or_else(|panic| resume_unwind(panic))
    }
}
