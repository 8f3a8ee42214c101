//! A hand that several threads and tasks share.

use crate::allocator::{Due, Held, Member, Set};
use crate::base::lock::{Guard, Lock};
use crate::bell::Bell;
use crate::error::Result;
use crate::future::Lends;
use crate::hand::Hand;
use crate::options::{Kind, Sizes};
use crate::owned::OwnedTag;
use crate::pool::Home;
use crate::queue::Queue;
use alloc::sync::Arc;
use core::fmt;
use core::panic::{RefUnwindSafe, UnwindSafe};
use core::sync::atomic::AtomicUsize;

mod loans;
mod waits;

pub(crate) use loans::{Lent, Loan};

/// A hand that several threads and tasks share, made by [`Hand::into_shared`]. A clone is the same hand. Its tags
/// borrow nothing: an [`OwnedTag`] is `Send`, can be held across an await, and keeps the hand alive.
///
/// Each call takes a lock for a short time, and never sleeps with it. A thread with a [`Hand`] of its own takes no
/// lock.
///
/// ```
/// # use tags::{Options, OwnedTag, Pool, SharedHand};
/// /// A worker keeps its hand and the tags that it holds.
/// struct Worker {
///     hand: SharedHand,
///     held: Vec<OwnedTag>,
/// }
///
/// # fn main() -> tags::Result<()> {
/// let pool = Pool::open(&Options::new(4, 1))?;
/// let mut worker = Worker { hand: pool.join()?.into_shared(), held: Vec::new() };
/// worker.held.extend(worker.hand.get()?);
/// std::thread::spawn(move || drop(worker)).join().unwrap();
/// assert_eq!(pool.close().unwrap().back, 1);
/// # Ok(())
/// # }
/// ```
pub struct SharedHand<T = ()> {
    inner: Arc<Inner<T>>,
}

struct Inner<T> {
    /// What the hand shares with its pool, which needs no lock. The tags are let go of before the hand goes back.
    set: Arc<Set<T>>,
    home: Arc<Home<T>>,
    hand: Lock<Lent<T>>,
    /// The hand's number.
    number: usize,
    /// How many handles there are.
    handles: AtomicUsize,
}

impl<T: UnwindSafe + RefUnwindSafe> UnwindSafe for SharedHand<T> {}
impl<T: UnwindSafe + RefUnwindSafe> RefUnwindSafe for SharedHand<T> {}

impl<T> SharedHand<T> {
    pub(crate) fn new(hand: Hand<T>) -> SharedHand<T> {
        let sleeper = hand.home.bell.sleeper;
        let inner = Inner {
            set: Arc::clone(hand.member.set()),
            home: Arc::clone(&hand.home),
            number: hand.member.number(),
            hand: Lock::new(Lent::new(hand), sleeper),
            handles: AtomicUsize::new(1),
        };
        SharedHand { inner: Arc::new(inner) }
    }

    /// The tags that the hand belongs to.
    #[inline]
    pub(crate) fn set(&self) -> &Set<T> {
        &self.inner.set
    }

    /// Makes a call of the hand that tells nobody.
    #[inline]
    pub(crate) fn look<R>(&self, call: impl FnOnce(&Member<T>) -> R) -> R {
        call(&self.inner.hand.lock().member)
    }

    /// Gives back the tag of a loan, which ends, and wakes those who wait.
    #[inline]
    pub(crate) fn give_and_wake(&self, held: Held) {
        let (hand, number) = (self.lock(), held.number());
        match hand.member.try_clear(held) {
            Ok(()) if self.bell().is_awaited() => self.tell_of_one_and_wake(hand, number),
            Ok(()) => self.end(hand),
            Err(held) => self.give_any_and_wake(hand, held),
        }
    }

    #[cold]
    #[inline]
    fn tell_of_one_and_wake(&self, hand: Guard<'_, Lent<T>>, number: u32) {
        let due = hand.tell(hand.member.freed(number));
        self.end_and_wake(hand, due);
    }

    #[cold]
    #[inline]
    fn give_any_and_wake(&self, hand: Guard<'_, Lent<T>>, held: Held) {
        let due = hand.give(held);
        self.end_and_wake(hand, due);
    }

    /// Makes the last call of a loan.
    pub(crate) fn end_with<R>(&self, call: impl FnOnce(&Hand<T>) -> (R, Due)) -> R {
        let hand = self.lock();
        let (answer, due) = call(&hand);
        self.end_and_wake(hand, due);
        answer
    }

    /// Takes the lock of the hand.
    #[inline]
    pub(crate) fn lock(&self) -> Guard<'_, Lent<T>> {
        self.inner.hand.lock()
    }

    /// The same, unless a call has it.
    #[inline]
    pub(crate) fn try_lock(&self) -> Option<Guard<'_, Lent<T>>> {
        self.inner.hand.try_lock()
    }

    /// Takes a free ordinary tag, as [`Hand::get`] does.
    #[inline]
    pub fn get(&self) -> Result<Option<OwnedTag<T>>> {
        self.get_with(self.lock())
    }

    #[inline]
    pub(crate) fn get_with(&self, mut hand: Guard<'_, Lent<T>>) -> Result<Option<OwnedTag<T>>> {
        match hand.member.try_get() {
            Some(held) => Ok(Some(self.tag(&mut hand, held))),
            None => self.outcome(hand),
        }
    }

    /// The tag that a call with the lock has come by.
    #[inline]
    pub(crate) fn tag(&self, hand: &mut Lent<T>, held: Held) -> OwnedTag<T> {
        OwnedTag::new(self.loan(hand), held)
    }

    #[cold]
    #[inline]
    fn outcome(&self, hand: Guard<'_, Lent<T>>) -> Result<Option<OwnedTag<T>>> {
        let found = hand.after_get(hand.member.outcome());
        self.guard(hand, found)
    }

    /// Ends a get: leaves the lock, and then wakes those who were told.
    fn guard(
        &self,
        mut hand: Guard<'_, Lent<T>>,
        (found, due): (Result<Option<Held>>, Due),
    ) -> Result<Option<OwnedTag<T>>> {
        let tag = found.map(|found| found.map(|held| self.tag(&mut hand, held)));
        drop(hand);
        self.bell().wake(due);
        tag
    }

    /// Takes a free reserved tag, as [`Hand::get_reserved`] does.
    pub fn get_reserved(&self) -> Result<Option<OwnedTag<T>>> {
        self.get_reserved_with(self.lock())
    }

    pub(crate) fn get_reserved_with(&self, hand: Guard<'_, Lent<T>>) -> Result<Option<OwnedTag<T>>> {
        let found = hand.after_get(hand.member.get_in(Kind::Reserved));
        self.guard(hand, found)
    }

    /// Takes a free ordinary tag out of a part of them, as [`Hand::get_shallow`] does.
    pub fn get_shallow(&self, depth: u32) -> Result<Option<OwnedTag<T>>> {
        let hand = self.lock();
        let found = hand.after_get(hand.member.get_shallow(depth));
        self.guard(hand, found)
    }

    /// Takes the tag with this number, if it is free, as [`Hand::get_exactly`] does.
    pub fn get_exactly(&self, number: u32) -> Result<Option<OwnedTag<T>>> {
        let hand = self.lock();
        let found = hand.after_get(hand.member.get_exactly(number));
        self.guard(hand, found)
    }

    /// Returns a guard for a tag that this hand holds without one, as [`Hand::claim`] does.
    ///
    /// ```
    /// # use tags::{Error, Options, Pool};
    /// # fn main() -> tags::Result<()> {
    /// let pool = Pool::open(&Options::new(4, 1))?;
    /// let hand = pool.join()?.into_shared();
    /// let number = hand.get_blocking()?.into_number();
    /// let tag = hand.claim(number)?;
    /// assert_eq!(hand.claim(number).unwrap_err(), Error::NotHeld);
    /// # drop(tag);
    /// # Ok(())
    /// # }
    /// ```
    pub fn claim(&self, number: u32) -> Result<OwnedTag<T>> {
        let mut hand = self.lock();
        let held = hand.member.claim(number)?;
        Ok(self.tag(&mut hand, held))
    }

    /// Returns whether this hand holds the tag with this number.
    pub fn holds(&self, number: u32) -> Result<bool> {
        self.look(|hand| hand.holds(number))
    }

    /// Takes a tag that a hand of this pool has posted, as [`Hand::take`] does.
    pub fn take(&self, number: u32) -> Result<OwnedTag<T>> {
        let mut hand = self.lock();
        let held = hand.member.take(number)?;
        Ok(self.tag(&mut hand, held))
    }

    /// Gives all kept tags back, and wakes whoever waits for one, as [`Hand::flush`] does.
    pub fn flush(&self) {
        self.lend(|hand| ((), hand.flush_kept()));
    }

    /// Reports which tags are busy, as [`Hand::busy`] does.
    pub fn busy(&self, into: &mut [u64]) -> Result<u32> {
        self.look(|hand| hand.busy(into))
    }

    /// Returns the sizes of a set of tags.
    #[must_use]
    pub fn show(&self, kind: Kind) -> Sizes {
        self.look(|hand| hand.show(kind))
    }

    /// Returns how many wait in the pool, as [`Hand::waiting`] does.
    #[must_use]
    pub fn waiting(&self) -> u32 {
        self.inner.home.count_waiting(self.inner.set.queues())
    }
}

impl<T> Lends for SharedHand<T> {
    type Value = T;

    /// No code of the program's, such as a waker, runs with the lock: those told are woken after it.
    #[inline]
    fn lend<R>(&self, call: impl FnOnce(&Hand<T>) -> (R, Due)) -> R {
        let hand = self.inner.hand.lock();
        let (answer, due) = call(&hand);
        drop(hand);
        self.bell().wake(due);
        answer
    }

    fn bell(&self) -> &Bell {
        &self.inner.home.bell
    }

    fn queue(&self, kind: Kind) -> &Queue {
        self.bell().queue(kind, self.inner.number)
    }
}

impl<T> From<Hand<T>> for SharedHand<T> {
    fn from(hand: Hand<T>) -> SharedHand<T> {
        SharedHand::new(hand)
    }
}

impl<T> fmt::Debug for SharedHand<T> {
    fn fmt(&self, f: &mut fmt::Formatter<'_>) -> fmt::Result {
        f.debug_struct("SharedHand").finish_non_exhaustive()
    }
}
