//! The hand through which a thread takes tags.

use crate::allocator::{Due, Freed, Held, Member};
use crate::batch::Batch;
use crate::error::{Error, Result};
use crate::notes::Note;
use crate::options::{Kind, Sizes};
use crate::pool::Home;
use crate::queues::TokenHands;
use crate::sets::BySet;
use crate::shared::SharedHand;
use crate::tag::Tag;
use crate::waits::Listening;
use alloc::sync::Arc;
use alloc::vec::Vec;
use core::cell::Cell;
use core::fmt;
use core::mem::ManuallyDrop;
use core::panic::{RefUnwindSafe, UnwindSafe};

/// A hand, through which one thread takes tags. It is `Send` but not `Sync`: no two threads can use it at once.
/// Dropping it returns it to its pool. [`into_shared`](Hand::into_shared) turns it into one that several threads and
/// tasks share, and whose tags borrow nothing.
///
/// ```compile_fail
/// fn share<T: Sync>() {}
/// share::<tags::Hand>();
/// ```
///
/// ```compile_fail
/// fn send<T: Send>() {}
/// send::<tags::Tag<'static>>();
/// ```
///
/// ```
/// fn send<T: Send>() {}
/// send::<tags::Hand>();
/// ```
pub struct Hand<T = ()> {
    /// Used up as the hand is dropped.
    pub(crate) member: ManuallyDrop<Member<T>>,
    pub(crate) home: Arc<Home<T>>,
    /// Whether it is listed for futures, in each set.
    pub(crate) listening: BySet<Cell<Listening>>,
    /// How often those who wait for the tags of lists had looked when this hand looked last.
    looks: Cell<u32>,
    pub(crate) token_hands: TokenHands,
}

// As with a lock of `std` that is poisoned: what a panic leaves behind beside a tag, its next holder finds.
impl<T: UnwindSafe + RefUnwindSafe> UnwindSafe for Hand<T> {}
impl<T: UnwindSafe + RefUnwindSafe> RefUnwindSafe for Hand<T> {}

impl<T> Hand<T> {
    pub(crate) fn new(member: Member<T>, home: Arc<Home<T>>) -> Hand<T> {
        Hand {
            member: ManuallyDrop::new(member),
            home,
            listening: BySet::default(),
            looks: Cell::default(),
            token_hands: TokenHands::default(),
        }
    }

    // A call returns how many tags of each set it made free, and whoever waits for one is to be told of them, and then woken.
    // That may call a waker: a hand behind a lock wakes after the lock is left.

    /// Wakes those whom a call told.
    #[inline]
    pub(crate) fn settle<R>(&self, (answer, due): (R, Due)) -> R {
        self.home.bell.wake(due);
        answer
    }

    /// The same after a get, which seldom makes tags free that it does not take.
    #[inline]
    fn settle_get<R>(&self, (found, left): (R, Freed)) -> R {
        if !left.is_none() {
            self.see_to_and_wake(left);
        }
        found
    }

    /// Tells those who wait of tags that became free, and wakes them.
    #[inline]
    pub(crate) fn see_to_and_wake(&self, freed: Freed) {
        if self.home.bell.is_awaited() {
            self.tell_and_wake(freed);
        }
    }

    #[cold]
    #[inline]
    fn tell_and_wake(&self, freed: Freed) {
        self.home.bell.wake(self.tell(freed));
    }

    /// Ends a get, which made tags free that it did not take.
    #[inline]
    pub(crate) fn after_get<R>(&self, (found, left): (R, Freed)) -> (R, Due) {
        let due = if left.is_none() { Due::NOBODY } else { self.see_to(left) };
        (found, due)
    }

    /// Ends a call that gave tags back, or let go of some: these became free.
    pub(crate) fn after_giving<R>(&self, (answer, freed): (R, Freed)) -> (R, Due) {
        (answer, self.see_to(freed))
    }

    /// Tells those who wait. If nobody is counted who waits, nobody is told.
    #[inline]
    fn see_to(&self, freed: Freed) -> Due {
        if self.home.bell.is_awaited() {
            return self.tell(freed);
        }
        Due::NOBODY
    }

    /// Tells those who wait of tags of their set that became free. What the hand keeps goes back while anybody waits. Threads
    /// that wait until tags are back look again.
    #[cold]
    pub(crate) fn tell(&self, freed: Freed) -> Due {
        let bell = &self.home.bell;
        let freed = freed.and(self.member.flush());
        if freed.is_none() {
            return Due::NOBODY;
        }
        let due = self
            .member
            .see_to(Kind::Ordinary, freed)
            .and(self.member.see_to(Kind::Reserved, freed));
        bell.tags().open(bell.sleeper);
        self.see_to_lists();
        due
    }

    /// Looks for those who wait for the tags of lists, once after each look of theirs: after tags became free, and after a
    /// get that may have swept a word, since to a look amid a sweep all tags of that are busy.
    #[cold]
    pub(crate) fn see_to_lists(&self) {
        let bell = &self.home.bell;
        bell.lists().tags_are_back(bell.sleeper, &self.looks, |busy| {
            let all = self.member.busy(busy);
            debug_assert!(all.is_ok(), "there is a bit for each tag");
        });
    }

    /// A note of this moment.
    pub(crate) fn note_of(&self, value: u64) -> Note {
        let since = self.home.bell.sleeper.now();
        Note { value, since }
    }

    /// Gives a held tag back.
    pub(crate) fn give(&self, held: Held) -> Due {
        self.see_to(self.member.clear(held))
    }

    /// Gives a held tag back, and wakes those who wait. What is rare is called last, so that the rest saves no registers.
    #[inline]
    pub(crate) fn give_and_wake(&self, held: Held) {
        let number = held.number();
        match self.member.try_clear(held) {
            Ok(()) if self.home.bell.is_awaited() => self.tell_of_one_and_wake(number),
            Ok(()) => (),
            Err(held) => self.give_any_and_wake(held),
        }
    }

    #[cold]
    #[inline]
    fn tell_of_one_and_wake(&self, number: u32) {
        self.tell_and_wake(self.member.freed(number));
    }

    #[cold]
    #[inline]
    fn give_any_and_wake(&self, held: Held) {
        self.see_to_and_wake(self.member.clear(held));
    }

    /// Takes a free ordinary tag. `None` means that each tag was found taken at some moment of the call, not that all
    /// were taken at one moment.
    ///
    /// ```
    /// # use tags::{Options, Pool};
    /// # fn main() -> tags::Result<()> {
    /// let pool = Pool::open(&Options::new(1, 1))?;
    /// let hand = pool.join()?;
    /// let tag = hand.get()?;
    /// assert!(tag.is_some() && hand.get()?.is_none());
    /// drop(tag);
    /// assert!(hand.get()?.is_some());
    /// # Ok(())
    /// # }
    /// ```
    #[inline(always)]
    pub fn get(&self) -> Result<Option<Tag<'_, T>>> {
        match self.member.try_get() {
            Some(held) => Ok(Some(Tag::new(self, held))),
            None => Ok(self.outcome()?.map(|held| Tag::new(self, held))),
        }
    }

    /// Its answer fits into registers, as one with a guard would not.
    #[cold]
    #[inline]
    fn outcome(&self) -> Result<Option<Held>> {
        self.settle_get(self.member.outcome())
    }

    /// Takes a free reserved tag. `None` is as from [`get`](Hand::get).
    #[inline]
    pub fn get_reserved(&self) -> Result<Option<Tag<'_, T>>> {
        let found = self.settle_get(self.member.get_in(Kind::Reserved));
        Ok(found?.map(|held| Tag::new(self, held)))
    }

    /// Takes a free tag of this kind.
    #[inline(always)]
    pub(crate) fn get_in(&self, kind: Kind) -> Result<Option<Tag<'_, T>>> {
        match kind {
            Kind::Ordinary => self.get(),
            Kind::Reserved => self.get_reserved(),
        }
    }

    /// Takes a free ordinary tag out of a part of them: `depth` is how many ordinary tags calls with this depth may
    /// use. Each word has a share of the depth in proportion to its tags, which can be 0.
    #[inline]
    pub fn get_shallow(&self, depth: u32) -> Result<Option<Tag<'_, T>>> {
        let found = self.settle_get(self.member.get_shallow(depth));
        Ok(found?.map(|held| Tag::new(self, held)))
    }

    /// Takes the tag with this number, ordinary or reserved, if it is free, and no other, by a bounded number of steps.
    /// A tag that this hand keeps is free for it, one that another hand keeps is not. `None` means that the tag was found
    /// taken at some moment of the call.
    ///
    /// ```
    /// # use tags::{Error, Options, Pool};
    /// # fn main() -> tags::Result<()> {
    /// let pool = Pool::open(&Options::new(16, 2))?;
    /// let (hand, other) = (pool.join()?, pool.join()?);
    /// let tag = hand.get_exactly(9)?.unwrap();
    /// assert_eq!(tag.number(), 9);
    /// assert!(other.get_exactly(9)?.is_none());
    /// assert_eq!(other.get_exactly(16).unwrap_err(), Error::NoSuchTag);
    /// # Ok(())
    /// # }
    /// ```
    pub fn get_exactly(&self, number: u32) -> Result<Option<Tag<'_, T>>> {
        let found = self.settle_get(self.member.get_exactly(number));
        Ok(found?.map(|held| Tag::new(self, held)))
    }

    /// Takes up to `n` ordinary tags out of a run of `n`; if a word has fewer, out of as many as it has, which
    /// [`Pool::batch_limit`](crate::Pool::batch_limit) tells. Under round robin it always returns `None`.
    ///
    /// ```
    /// # use tags::{Options, Pool};
    /// # fn main() -> tags::Result<()> {
    /// let pool = Pool::open(&Options::new(16, 1))?;
    /// let hand = pool.join()?;
    /// let batch = hand.get_batch(3)?.unwrap();
    /// assert!(batch.numbers().eq([0, 1, 2]));
    /// # Ok(())
    /// # }
    /// ```
    #[inline]
    pub fn get_batch(&self, n: u32) -> Result<Option<Batch<'_, T>>> {
        let found = self.settle_get(self.member.get_batch(n.min(self.home.batch_limit)));
        Ok(found?.map(|held| Batch::new(self, held)))
    }

    /// Takes this many ordinary tags, from any words, or none of them, for what can do nothing with fewer. It takes no
    /// kept tag. `None` means that a get found none before there were enough: those taken before it went back, and
    /// whoever waits was told. Of several such calls at once each may find too few, though one alone would have found
    /// enough. Refusals: [`BadCount`](crate::Error::BadCount) for 0 tags, or more than the pool has ordinary ones, and
    /// [`NoMemory`](crate::Error::NoMemory), without a get.
    ///
    /// ```
    /// # use tags::{Error, Options, Pool};
    /// # fn main() -> tags::Result<()> {
    /// let pool = Pool::open(&Options::new(8, 1))?;
    /// let hand = pool.join()?;
    /// let mut five = hand.get_many(5)?.unwrap();
    /// assert!(hand.get_many(4)?.is_none());
    /// five.pop();
    /// assert!(hand.get_many(4)?.is_some());
    /// assert_eq!([0, 9].map(|n| hand.get_many(n).unwrap_err()), [Error::BadCount; 2]);
    /// # Ok(())
    /// # }
    /// ```
    pub fn get_many(&self, n: u32) -> Result<Option<Vec<Tag<'_, T>>>> {
        if n == 0 || n > self.member.set().depth(Kind::Ordinary) {
            return Err(Error::BadCount);
        }
        let (mut numbers, mut all) = (Vec::new(), Vec::new());
        numbers.try_reserve_exact(n as usize).map_err(|_| Error::NoMemory)?;
        numbers.resize(n as usize, 0);
        all.try_reserve_exact(n as usize).map_err(|_| Error::NoMemory)?;
        let guard = |held| all.push(Tag::new(self, held));
        let found = self.settle_get(self.member.get_many(&mut numbers, guard));
        Ok(found?.map(|()| all))
    }

    /// Gives all kept tags back, and wakes whoever waits for one. A hand keeps tags if the pool was opened with a
    /// [`cache`](crate::Options::cache). Call it before the thread goes idle or sleeps; dropping the hand does the
    /// same.
    pub fn flush(&self) {
        self.settle(((), self.flush_kept()));
    }

    pub(crate) fn flush_kept(&self) -> Due {
        self.see_to(self.member.flush())
    }

    /// Turns this hand into one that several threads and tasks share. Its tags are [`OwnedTag`](crate::OwnedTag)s.
    pub fn into_shared(self) -> SharedHand<T> {
        SharedHand::new(self)
    }

    /// Sets bit `t % 64` of `into[t / 64]` for each busy tag `t`, clears every other bit, and returns how many tags are
    /// busy.
    pub fn busy(&self, into: &mut [u64]) -> Result<u32> {
        self.member.busy(into)
    }

    /// Returns the sizes of a set of tags.
    #[must_use]
    pub fn show(&self, kind: Kind) -> Sizes {
        self.member.show(kind)
    }

    /// Returns how many wait in the pool: threads that sleep for a tag and futures, for either set and in all queues, also
    /// those that were told and have not tried again yet, and threads that sleep until all tags are back.
    #[must_use]
    pub fn waiting(&self) -> u32 {
        self.home.count_waiting(self.member.set().queues())
    }
}

impl<T> Drop for Hand<T> {
    fn drop(&mut self) {
        let bell = &self.home.bell;
        let leaked = bell.queues(self.member.number()).flat_map(|queue| queue.close(bell));
        let due = leaked.fold(Due::NOBODY, |due, held| due.and(self.give(held)));
        let due = due
            .and(self.end_listening(Kind::Ordinary))
            .and(self.end_listening(Kind::Reserved));
        bell.wake(due.and(self.flush_kept()));
        // Before others can join in place of this one.
        self.token_hands.leave();
        // SAFETY: this is its last use.
        let member = unsafe { ManuallyDrop::take(&mut self.member) };
        member.leave(&mut self.home.roster.lock());
        bell.hands().open(bell.sleeper);
    }
}

impl<T> fmt::Debug for Hand<T> {
    fn fmt(&self, f: &mut fmt::Formatter<'_>) -> fmt::Result {
        f.debug_struct("Hand").finish_non_exhaustive()
    }
}
