//! A bounded queue.

use crate::base::sleep::Wait;
use crate::base::vec::{AllocError, Global};
use std::collections::VecDeque;
use std::marker::PhantomData;
use std::sync::{Mutex, MutexGuard, PoisonError};

/// A queue that threads share, of at most so many items.
pub struct RuledArrayQueue<T> {
    most: usize,
    items: Mutex<VecDeque<T>>,
}

/// The right to use a queue.
pub struct Pass<T>(PhantomData<T>);

impl<T> RuledArrayQueue<T> {
    pub fn ruled(_: Global, most: usize) -> Result<(Self, Pass<T>), AllocError> {
        let mut items = VecDeque::new();
        items.try_reserve_exact(most).map_err(|_| AllocError)?;
        let items = Mutex::new(items);
        Ok((RuledArrayQueue { most, items }, Pass(PhantomData)))
    }

    /// A pass for one more thread.
    pub fn another(&self, _: &mut Pass<T>) -> Pass<T> {
        Pass(PhantomData)
    }

    /// Nothing panics while it holds the lock.
    fn items(&self) -> MutexGuard<'_, VecDeque<T>> {
        self.items.lock().unwrap_or_else(PoisonError::into_inner)
    }

    /// Pushes an item, or returns it if the queue is full.
    pub fn push_as<W: Wait>(&self, _: &W, _: &mut Pass<T>, item: T) -> Result<(), T> {
        let mut items = self.items();
        if items.len() == self.most {
            return Err(item);
        }
        items.push_back(item);
        Ok(())
    }

    /// Pops the item that was pushed first.
    pub fn pop_as<W: Wait>(&self, _: &W, _: &mut Pass<T>) -> Option<T> {
        self.items().pop_front()
    }
}
