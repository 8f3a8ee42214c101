//! Hands that any number of threads share, one for each processor.

use crate::allocator::Member;
use crate::base::lock::Guard;
use crate::error::{Error, Result};
use crate::future::Lends;
use crate::owned::OwnedTag;
use crate::pool::Pool;
use crate::shared::{Lent, SharedHand};
use alloc::sync::Arc;
use alloc::vec::Vec;
use core::fmt;

mod waits;

/// Hands that any number of threads share, made by [`Pool::share`]: for more threads than hands, or threads that come
/// and go. A clone is the same hands. Each call takes the hand of the processor that it runs on, or the next one that no
/// other call has, and only while all are in calls it waits for one. So threads seldom take turns, as they do with one
/// [`SharedHand`]; a thread with a [`Hand`](crate::Hand) of its own is faster.
///
/// Its tags borrow nothing: an [`OwnedTag`] is `Send`, goes back on whichever thread it is dropped, and keeps the hand
/// alive that holds it. The hands go back to their pool once the last clone and the last tag are dropped.
///
/// ```
/// # use tags::{Options, Pool, SharedHands};
/// # fn main() -> tags::Result<()> {
/// let pool = Pool::open(&Options::new(64, 8))?;
/// let hands = pool.share(0)?;
/// std::thread::scope(|threads| {
///     for _ in 0..32 {
///         threads.spawn(|| drop(hands.get_blocking().unwrap()));
///     }
/// });
/// drop(hands);
/// assert_eq!(pool.close().unwrap().back, 32);
/// # Ok(())
/// # }
/// ```
///
/// ```
/// fn share<T: Send + Sync + Clone + 'static>() {}
/// share::<tags::SharedHands>();
/// ```
pub struct SharedHands<T = ()> {
    inner: Arc<Inner<T>>,
}

struct Inner<T> {
    hands: Vec<SharedHand<T>>,
    /// Whether hands keep tags.
    is_cached: bool,
}

impl<T> Pool<T> {
    /// Returns so many hands that any number of threads share; 0 for one for each processor, or for all that are there
    /// if these are fewer. Other threads may join with hands of their own, too. It is refused with
    /// [`NoHand`](Error::NoHand) if there are fewer, and takes none then.
    ///
    /// ```
    /// # use tags::{Error, Options, Pool};
    /// # fn main() -> tags::Result<()> {
    /// let pool = Pool::open(&Options::new(16, 3))?;
    /// assert_eq!(pool.share(4).unwrap_err(), Error::NoHand);
    /// let hands = pool.share(2)?;
    /// assert_eq!(hands.count(), 2);
    /// assert!(pool.join().is_ok());
    /// # Ok(())
    /// # }
    /// ```
    pub fn share(&self, count: u32) -> Result<SharedHands<T>> {
        let mut hands = Vec::new();
        self.share_one(&mut hands)?;
        let most = match count {
            0 => hands[0].bell().sleeper.processors(),
            _ => count as usize,
        };
        while hands.len() < most {
            match self.share_one(&mut hands) {
                Err(Error::NoHand) if count == 0 => break,
                joined => joined?,
            }
        }
        let is_cached = hands[0].look(Member::is_cached);
        let inner = Inner { hands, is_cached };
        Ok(SharedHands { inner: Arc::new(inner) })
    }

    fn share_one(&self, hands: &mut Vec<SharedHand<T>>) -> Result<()> {
        hands.try_reserve(1).map_err(|_| Error::NoMemory)?;
        hands.push(self.join()?.into_shared());
        Ok(())
    }
}

impl<T> SharedHands<T> {
    /// Returns how many hands there are.
    #[must_use]
    pub fn count(&self) -> usize {
        self.inner.hands.len()
    }

    /// Returns the hand of the processor that this call runs on, for the calls that are missing here. Another call may
    /// have it.
    #[inline]
    #[must_use]
    pub fn hand(&self) -> &SharedHand<T> {
        &self.inner.hands[self.own()]
    }

    /// The place of this processor's hand. Its number is mostly below the count, and a division takes as long as a step on
    /// a word.
    #[inline]
    fn own(&self) -> usize {
        let processor = self.inner.hands[0].bell().sleeper.processor();
        if processor < self.count() {
            processor
        } else {
            processor % self.count()
        }
    }

    /// Takes the lock of this processor's hand, or of the next one that no call has.
    #[inline]
    fn enter(&self) -> (&SharedHand<T>, Guard<'_, Lent<T>>) {
        let (before, after) = self.inner.hands.split_at(self.own());
        for hand in after.iter().chain(before) {
            if let Some(guard) = hand.try_lock() {
                return (hand, guard);
            }
        }
        (&after[0], after[0].lock())
    }

    /// Takes a free ordinary tag, as [`Hand::get`](crate::Hand::get) does.
    #[inline]
    pub fn get(&self) -> Result<Option<OwnedTag<T>>> {
        let (shared, hand) = self.enter();
        shared.get_with(hand)
    }

    /// Takes a free reserved tag, as [`Hand::get_reserved`](crate::Hand::get_reserved) does.
    pub fn get_reserved(&self) -> Result<Option<OwnedTag<T>>> {
        let (shared, hand) = self.enter();
        shared.get_reserved_with(hand)
    }

    /// Returns a guard for a tag that one of these hands holds without one, as [`Hand::claim`](crate::Hand::claim) does.
    /// It asks one hand after another, so it takes longer with many.
    ///
    /// ```
    /// # use tags::{Error, Options, Pool};
    /// # fn main() -> tags::Result<()> {
    /// let pool = Pool::open(&Options::new(4, 3))?;
    /// let hands = pool.share(3)?;
    /// let number = hands.get_blocking()?.into_number();
    /// let claimed = std::thread::scope(|threads| threads.spawn(|| hands.claim(number)).join().unwrap())?;
    /// assert_eq!(hands.claim(number).unwrap_err(), Error::NotHeld);
    /// # drop(claimed);
    /// # Ok(())
    /// # }
    /// ```
    pub fn claim(&self, number: u32) -> Result<OwnedTag<T>> {
        let (before, after) = self.inner.hands.split_at(self.own());
        let claims = after.iter().chain(before).map(|hand| hand.claim(number));
        let found = claims.into_iter().find(Result::is_ok);
        found.unwrap_or(Err(Error::NotHeld))
    }

    /// Takes a tag that a hand of this pool has posted, as [`Hand::take`](crate::Hand::take) does.
    pub fn take(&self, number: u32) -> Result<OwnedTag<T>> {
        let (shared, mut hand) = self.enter();
        let held = hand.member.take(number)?;
        Ok(shared.tag(&mut hand, held))
    }

    /// Gives back what the hands keep, and wakes whoever waits for a tag, as [`Hand::flush`](crate::Hand::flush) does
    /// with each of them.
    pub fn flush(&self) {
        self.inner.hands.iter().for_each(SharedHand::flush);
    }
}

impl<T> Clone for SharedHands<T> {
    fn clone(&self) -> SharedHands<T> {
        SharedHands {
            inner: Arc::clone(&self.inner),
        }
    }
}

impl<T> fmt::Debug for SharedHands<T> {
    fn fmt(&self, f: &mut fmt::Formatter<'_>) -> fmt::Result {
        f.debug_struct("SharedHands").finish_non_exhaustive()
    }
}
