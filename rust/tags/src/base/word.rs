//! Atomic words, and the use of a slot. The explorer of schedules has its own of these.

pub use core::sync::atomic::{AtomicU32, AtomicU64 as Word};

/// How often a thread looks whether a lock is free before it sleeps.
pub const LOOKS: u32 = 100;

/// A slot, the value beside a tag or that of a lock is about to be used.
#[inline(always)]
pub fn touch<T>(_: *mut T) {}
