//! Vectors that say when memory runs out.

use alloc::vec::Vec as Plain;
use core::ops::{Deref, DerefMut};

/// Where memory comes from: the program's global allocator.
#[derive(Clone, Copy, Debug, PartialEq, Eq)]
pub struct Global;

/// Memory ran out.
#[derive(Clone, Copy, Debug, PartialEq, Eq)]
pub struct AllocError;

impl core::fmt::Display for AllocError {
    fn fmt(&self, f: &mut core::fmt::Formatter<'_>) -> core::fmt::Result {
        f.write_str("out of memory")
    }
}

impl core::error::Error for AllocError {}

/// A vector whose growth can fail. It is then as it was.
#[derive(Debug)]
pub struct Vec<T>(Plain<T>);

impl<T> Vec<T> {
    pub const fn new(_: Global) -> Self {
        Vec(Plain::new())
    }

    pub fn with_capacity(alloc: Global, count: usize) -> Result<Self, AllocError> {
        let mut all = Vec::new(alloc);
        all.0.try_reserve_exact(count).map_err(|_| AllocError)?;
        Ok(all)
    }

    /// `count` times `item`.
    pub fn filled(alloc: Global, item: T, count: usize) -> Result<Self, AllocError>
    where
        T: Copy,
    {
        let mut all = Vec::with_capacity(alloc, count)?;
        all.0.resize(count, item);
        Ok(all)
    }

    /// A copy of these items.
    pub fn of(alloc: Global, items: &[T]) -> Result<Self, AllocError>
    where
        T: Copy,
    {
        let mut all = Vec::with_capacity(alloc, items.len())?;
        all.0.extend_from_slice(items);
        Ok(all)
    }

    /// Makes room for more items.
    pub fn reserve(&mut self, more: usize) -> Result<(), AllocError> {
        self.0.try_reserve(more).map_err(|_| AllocError)
    }

    pub fn push(&mut self, item: T) -> Result<(), AllocError> {
        self.reserve(1)?;
        self.0.push(item);
        Ok(())
    }

    /// Pushes where there is room: the prover checks `vec_len < vec_capacity`.
    pub fn push_reserved(&mut self, item: T) {
        debug_assert!(self.0.len() < self.0.capacity(), "room for an item");
        self.0.push(item);
    }

    pub fn extend_from_slice(&mut self, items: &[T]) -> Result<(), AllocError>
    where
        T: Copy,
    {
        self.reserve(items.len())?;
        self.0.extend_from_slice(items);
        Ok(())
    }

    pub fn resize(&mut self, count: usize, item: T) -> Result<(), AllocError>
    where
        T: Copy,
    {
        self.reserve(count.saturating_sub(self.0.len()))?;
        self.0.resize(count, item);
        Ok(())
    }

    pub fn remove(&mut self, index: usize) -> T {
        self.0.remove(index)
    }

    pub fn pop(&mut self) -> Option<T> {
        self.0.pop()
    }

    pub fn clear(&mut self) {
        self.0.clear();
    }

    pub fn as_slice(&self) -> &[T] {
        &self.0
    }

    pub fn as_mut_slice(&mut self) -> &mut [T] {
        &mut self.0
    }
}

impl<T> From<Plain<T>> for Vec<T> {
    fn from(all: Plain<T>) -> Self {
        Vec(all)
    }
}

impl<T> From<Vec<T>> for Plain<T> {
    fn from(all: Vec<T>) -> Self {
        all.0
    }
}

impl<T> Deref for Vec<T> {
    type Target = [T];

    fn deref(&self) -> &[T] {
        &self.0
    }
}

impl<T> DerefMut for Vec<T> {
    fn deref_mut(&mut self) -> &mut [T] {
        &mut self.0
    }
}

impl<T> IntoIterator for Vec<T> {
    type Item = T;
    type IntoIter = alloc::vec::IntoIter<T>;

    fn into_iter(self) -> Self::IntoIter {
        self.0.into_iter()
    }
}

impl<'a, T> IntoIterator for &'a Vec<T> {
    type Item = &'a T;
    type IntoIter = core::slice::Iter<'a, T>;

    fn into_iter(self) -> Self::IntoIter {
        self.0.iter()
    }
}
