//! A lock.

use crate::base::sleep::Wait;
use std::sync::{MutexGuard, PoisonError};

/// A lock, taken by those who may wait. Nothing panics while it holds it.
pub struct Mutex<T>(std::sync::Mutex<T>);

impl<T> Mutex<T> {
    pub fn new(value: T) -> Self {
        Mutex(std::sync::Mutex::new(value))
    }

    pub fn lock<W: Wait>(&self, _: &W) -> MutexGuard<'_, T> {
        self.0.lock().unwrap_or_else(PoisonError::into_inner)
    }

    pub fn into_inner(self) -> T {
        self.0.into_inner().unwrap_or_else(PoisonError::into_inner)
    }
}
