//! What a guard uses: its hand, and the value beside its tag. All unsafe code outside of `base` is here, but for the end
//! of a hand in its drop, and the copy of a handle that a tag of a shared hand has (`shared/loans.rs`).

use crate::allocator::{Held, HeldMask};
use crate::base::word::touch;
use crate::error::{Error, Result};
use alloc::vec::Vec;
use core::cell::{Cell, UnsafeCell};

/// What one call at a time uses, of one thread at a time.
pub(crate) struct Own<V> {
    value: UnsafeCell<V>,
    /// For debug builds, which check that no call is made within another one.
    is_lent: Cell<bool>,
}

impl<V> Own<V> {
    pub fn new(value: V) -> Own<V> {
        Own {
            value: UnsafeCell::new(value),
            is_lent: Cell::new(false),
        }
    }

    /// Lends the value to a call, which neither calls code of the program nor lends the same value again.
    #[inline(always)]
    pub fn lend<R>(&self, call: impl FnOnce(&mut V) -> R) -> R {
        debug_assert!(!self.is_lent.replace(true), "one call at a time");
        // SAFETY: this type is not `Sync`, and the call does not lend the value again: so this is its only borrow.
        let answer = call(unsafe { &mut *self.value.get() });
        debug_assert!(self.is_lent.replace(false));
        answer
    }
}

/// A value for each tag of a pool, which only the guard of a tag uses.
pub(crate) struct Values<T> {
    cells: Vec<UnsafeCell<T>>,
}

// SAFETY: a value is used through the guard of its tag alone. The proved tags give a tag to one hand at a time, and a
// hand makes one guard of it; what the former guard wrote is seen by the next one, as the steps on the tag's words
// order them. So a value is passed from thread to thread, and never shared by two of them, unless it is `Sync`
// (`OwnedTag`).
unsafe impl<T: Send> Sync for Values<T> {}

impl<T> Values<T> {
    /// A value for each number of the range.
    pub fn new(numbers: core::ops::Range<u32>, make: impl FnMut(u32) -> T) -> Result<Values<T>> {
        let mut cells = Vec::new();
        let count = numbers.len();
        cells.try_reserve_exact(count).map_err(|_| Error::NoMemory)?;
        cells.extend(numbers.map(make).map(UnsafeCell::new));
        Ok(Values { cells })
    }

    /// Makes room for a `replace`, which then can't fail: in these values, and in those that it returns, which are none
    /// yet.
    pub fn room_for(&mut self, first: u32, others: &Values<T>) -> Result<Values<T>> {
        let mut cells = Vec::new();
        let leaving = self.cells.len() - first as usize;
        cells.try_reserve_exact(leaving).map_err(|_| Error::NoMemory)?;
        let more = others.cells.len().saturating_sub(leaving);
        self.cells.try_reserve_exact(more).map_err(|_| Error::NoMemory)?;
        Ok(Values { cells })
    }

    /// Puts other values in place of those from `first` on, and returns these in the room that was made for them.
    pub fn replace(&mut self, first: u32, mut others: Values<T>, mut room: Values<T>) -> Values<T> {
        room.cells.extend(self.cells.drain(first as usize..));
        self.cells.append(&mut others.cells);
        room
    }

    fn cell(&self, number: u32) -> *mut T {
        let cell = self.cells[number as usize].get();
        touch(cell);
        cell
    }

    // A guard keeps its `Held` beside the hand that the tag is held by, and asks the values of that hand's pool. So no
    // other guard names the same cell, and the value is borrowed no longer than the guard. Values are replaced through
    // `&mut self`.

    #[inline]
    pub fn of<'a>(&'a self, held: &'a Held) -> &'a T {
        // SAFETY: as above: all other borrows of the value are of this guard, and shared ones.
        unsafe { &*self.cell(held.number()) }
    }

    #[inline]
    pub fn of_mut<'a>(&'a self, held: &'a mut Held) -> &'a mut T {
        // SAFETY: as above: this is the only borrow of the value.
        unsafe { &mut *self.cell(held.number()) }
    }

    pub fn of_one<'a>(&'a self, held: &'a HeldMask, number: u32) -> Option<&'a T> {
        let is_held = held.numbers().has(number);
        // SAFETY: as in `of`.
        is_held.then(|| unsafe { &*self.cell(number) })
    }

    pub fn of_one_mut<'a>(&'a self, held: &'a mut HeldMask, number: u32) -> Option<&'a mut T> {
        let is_held = held.numbers().has(number);
        // SAFETY: as in `of_mut`.
        is_held.then(|| unsafe { &mut *self.cell(number) })
    }
}
