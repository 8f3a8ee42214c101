//! Tags that a hand holds.

use crate::allocator::Held;
use crate::error::{Result, SubmitError};
use crate::hand::Hand;
use crate::notes::Note;
use core::fmt;
use core::mem::ManuallyDrop;

/// A tag that a hand holds. Dropping it gives the tag back.
///
/// ```compile_fail
/// # use tags::{Options, Pool};
/// let pool = Pool::open_with(&Options::new(1, 1), |_| 0).unwrap();
/// let hand = pool.join().unwrap();
/// let mut tag = hand.get_blocking().unwrap();
/// let value = tag.value();
/// *tag.value_mut() = 1;
/// assert_eq!(*value, 0);
/// ```
#[must_use = "the tag goes back at once"]
pub struct Tag<'a, T = ()> {
    hand: &'a Hand<T>,
    held: Held,
}

impl<'a, T> Tag<'a, T> {
    #[inline]
    pub(crate) fn new(hand: &'a Hand<T>, held: Held) -> Tag<'a, T> {
        Tag { hand, held }
    }

    /// Returns the number of the tag, below the pool's total.
    #[inline]
    #[must_use]
    pub fn number(&self) -> u32 {
        self.held.number()
    }

    /// Returns the value of the tag's slot, which is unspecified until it is written.
    #[must_use]
    pub fn read(&self) -> u64 {
        self.hand.member.read(&self.held)
    }

    /// Writes the tag's slot, and returns the former value.
    ///
    /// ```
    /// # use tags::{Options, Pool};
    /// # fn main() -> tags::Result<()> {
    /// let pool = Pool::open(&Options::new(4, 1))?;
    /// let hand = pool.join()?;
    /// let tag = hand.get_blocking()?;
    /// tag.write(70);
    /// assert_eq!((tag.write(71), tag.read()), (70, 71));
    /// # Ok(())
    /// # }
    /// ```
    pub fn write(&self, value: u64) -> u64 {
        self.hand.member.write(&self.held, value)
    }

    /// Publishes the tag's note, which anybody may read by [`Pool::noted_tags`](crate::Pool::noted_tags) while others
    /// run, with the time. It takes the place of the one before, stays with the tag while that is posted and taken, and
    /// ends just before the tag goes back. [`NoNotes`](crate::Error::NoNotes) means that the pool was opened without
    /// [`notes`](crate::Options::notes).
    ///
    /// ```
    /// # use tags::{Error, Options, Pool};
    /// # fn main() -> tags::Result<()> {
    /// let pool = Pool::open(&Options { notes: true, ..Options::new(4, 1) })?;
    /// let hand = pool.join()?;
    /// let tag = hand.get_blocking()?;
    /// tag.note(70)?;
    /// let noted: Vec<_> = pool.noted_tags()?.map(|(tag, note)| (tag, note.unwrap().value)).collect();
    /// assert_eq!(noted, [(tag.number(), 70)]);
    /// drop(tag);
    /// assert!(pool.noted_tags()?.next().is_none());
    /// # Ok(())
    /// # }
    /// ```
    pub fn note(&self, value: u64) -> Result<()> {
        self.publish(self.hand.note_of(value))
    }

    pub(crate) fn publish(&self, note: Note) -> Result<()> {
        self.hand.member.note(self.number(), note)
    }

    /// Returns the value beside the tag, as the tag's former holder left it.
    #[inline]
    #[must_use]
    pub fn value(&self) -> &T {
        self.hand.member.set().value(&self.held)
    }

    /// Returns the value beside the tag, to be changed.
    #[inline]
    #[must_use]
    pub fn value_mut(&mut self) -> &mut T {
        self.hand.member.set().value_mut(&mut self.held)
    }

    /// Ends the guard without giving the tag back.
    fn end(self) -> (&'a Hand<T>, Held) {
        let mut guard = ManuallyDrop::new(self);
        (guard.hand, guard.held.pass())
    }

    /// Lets go of the guard without giving the tag back, and returns the tag's number. The hand still holds the tag,
    /// and [`claim`](Hand::claim) returns a guard for the number again.
    #[must_use = "the hand keeps the tag until it claims this number"]
    pub fn into_number(self) -> u32 {
        let (hand, held) = self.end();
        hand.member.let_go(held)
    }

    /// Offers the tag, with its slot and its value, to all hands of the pool, and returns its number: the first hand
    /// that [takes](Hand::take) it gets it.
    #[must_use = "the tag stays posted until a hand takes this number"]
    pub fn post(self) -> u32 {
        let (hand, held) = self.end();
        hand.settle(hand.after_giving(hand.member.post(held)))
    }

    /// Posts the tag at the end of a queue of the pool, and returns its number: a hand that asks for the
    /// [next](Hand::next) tag of the queue gets it in its turn. This wakes one that sleeps for it.
    ///
    /// It is posted for that queue alone: a [`take`](Hand::take) of its number is refused with
    /// [`NotPosted`](crate::Error::NotPosted). Refusals: [`NoSuchQueue`](crate::Error::NoSuchQueue), and
    /// [`NoMemory`](crate::Error::NoMemory), which is possible only where the hand uses the queue for the first time.
    /// The error hands the tag back.
    ///
    /// ```
    /// # use tags::{Error, Options, Pool};
    /// # fn main() -> tags::Result<()> {
    /// let pool = Pool::open(&Options { queues: 1, ..Options::new(4, 2) })?;
    /// let (first, second) = (pool.join()?, pool.join()?);
    /// let tag = first.get_blocking()?;
    /// let refused = tag.submit(1).unwrap_err();
    /// assert_eq!((refused.error, refused.tag.number()), (Error::NoSuchQueue, 0));
    /// let number = refused.tag.submit(0)?;
    /// assert_eq!(second.take(number).unwrap_err(), Error::NotPosted);
    /// assert_eq!(second.next(0)?.map(|tag| tag.number()), Some(number));
    /// # Ok(())
    /// # }
    /// ```
    pub fn submit(self, queue: u32) -> core::result::Result<u32, SubmitError<'a, T>> {
        let queue = match self.hand.queue(queue) {
            Ok(queue) => queue,
            Err(error) => return Err(SubmitError { error, tag: self }),
        };
        let token = queue.take_token_of(self.number());
        let (hand, held) = self.end();
        let (number, due) = hand.after_giving(hand.member.post_marked(held));
        queue.push(number, token);
        hand.home.bell.wake(due);
        Ok(number)
    }
}

impl<T> Drop for Tag<'_, T> {
    #[inline]
    fn drop(&mut self) {
        self.hand.give_and_wake(self.held.pass());
    }
}

impl<T> fmt::Debug for Tag<'_, T> {
    fn fmt(&self, f: &mut fmt::Formatter<'_>) -> fmt::Result {
        let mut shown = f.debug_struct("Tag");
        shown.field("number", &self.number()).finish_non_exhaustive()
    }
}
