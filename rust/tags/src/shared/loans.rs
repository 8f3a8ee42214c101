//! How tags keep their hand alive: they are counted behind its lock, which a get and a drop take anyway, so that a count of
//! their own, as of a clone, takes no step.
//!
//! All tags together have one count of the hand's `Arc`, the *keeper*, from the first tag on. It ends once there is neither
//! a handle nor a tag. A handle that is dropped leaves the count of handles before it looks for tags, with the lock, and a
//! tag leaves its count with the lock before it looks for handles: so one of them finds that nothing is left. Nobody but the
//! first one finds a keeper.

use crate::allocator::Due;
use crate::base::lock::Guard;
use crate::hand::Hand;
use crate::shared::{Inner, SharedHand};
use alloc::sync::Arc;
use core::mem::ManuallyDrop;
use core::ops::Deref;
use core::sync::atomic::Ordering::SeqCst;

/// A hand behind its lock, with what its tags count.
pub(crate) struct Lent<T> {
    hand: Hand<T>,
    /// How many loans there are, one for each tag.
    loans: usize,
    keeper: Option<Arc<Inner<T>>>,
}

impl<T> Lent<T> {
    pub fn new(hand: Hand<T>) -> Lent<T> {
        Lent {
            hand,
            loans: 0,
            keeper: None,
        }
    }
}

impl<T> Deref for Lent<T> {
    type Target = Hand<T>;

    #[inline]
    fn deref(&self) -> &Hand<T> {
        &self.hand
    }
}

/// A handle that a tag has, and that the keeper keeps alive: `SharedHand::end` ends it, and a drop does not.
pub(crate) struct Loan<T>(ManuallyDrop<SharedHand<T>>);

impl<T> Deref for Loan<T> {
    type Target = SharedHand<T>;

    #[inline]
    fn deref(&self) -> &SharedHand<T> {
        &self.0
    }
}

impl<T> SharedHand<T> {
    /// Makes a loan of this hand, whose lock the caller has.
    #[inline]
    pub(crate) fn loan(&self, lent: &mut Lent<T>) -> Loan<T> {
        lent.loans += 1;
        if lent.keeper.is_none() {
            self.keep(lent);
        }
        // SAFETY: the copy is never dropped, and it is not used after its loan has ended. Until then the keeper has a count
        // of the `Arc` in it.
        Loan(ManuallyDrop::new(unsafe { core::ptr::read(self) }))
    }

    #[cold]
    fn keep(&self, lent: &mut Lent<T>) {
        lent.keeper = Some(Arc::clone(&self.inner));
    }

    /// Ends a loan of this hand and leaves the lock. From then on others may end the hand.
    #[inline]
    pub(super) fn end(&self, mut lent: Guard<'_, Lent<T>>) {
        if lent.loans == 1 && self.inner.handles.load(SeqCst) == 0 {
            return self.end_and_wake(lent, Due::NOBODY);
        }
        lent.loans -= 1;
        lent.leave(|| Arc::clone(&self.inner));
    }

    /// The same, and then wakes those who were told.
    #[cold]
    pub(super) fn end_and_wake(&self, mut lent: Guard<'_, Lent<T>>, due: Due) {
        let inner = Arc::clone(&self.inner);
        lent.loans -= 1;
        let keeper = inner.without_users(&mut lent);
        drop(lent);
        inner.home.bell.wake(due);
        drop(keeper);
    }
}

impl<T> Inner<T> {
    /// Returns the keeper if nothing uses the hand any more, to be dropped without the lock.
    fn without_users(&self, lent: &mut Lent<T>) -> Option<Arc<Inner<T>>> {
        let is_left = lent.loans == 0 && self.handles.load(SeqCst) == 0;
        if is_left {
            lent.keeper.take()
        } else {
            None
        }
    }
}

impl<T> Clone for SharedHand<T> {
    fn clone(&self) -> SharedHand<T> {
        self.inner.handles.fetch_add(1, SeqCst);
        SharedHand {
            inner: Arc::clone(&self.inner),
        }
    }
}

impl<T> Drop for SharedHand<T> {
    fn drop(&mut self) {
        if self.inner.handles.fetch_sub(1, SeqCst) == 1 {
            let keeper = self.inner.without_users(&mut self.inner.hand.lock());
            drop(keeper);
        }
    }
}
