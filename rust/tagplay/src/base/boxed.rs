//! Boxes whose making can fail.

use crate::base::vec::{AllocError, Global, Vec};
use std::ops::{Deref, DerefMut};

/// A value of its own in memory. It is the one item of a vector, since Rust's own box ends the program where memory runs
/// out.
#[derive(Debug)]
pub struct Box<T>(Vec<T>);

impl<T> Box<T> {
    pub fn new(alloc: Global, value: T) -> Result<Self, AllocError> {
        let mut one = Vec::new(alloc);
        one.push(value)?;
        Ok(Box(one))
    }
}

impl<T> Deref for Box<T> {
    type Target = T;

    fn deref(&self) -> &T {
        &self.0[0]
    }
}

impl<T> DerefMut for Box<T> {
    fn deref_mut(&mut self) -> &mut T {
        &mut self.0[0]
    }
}
