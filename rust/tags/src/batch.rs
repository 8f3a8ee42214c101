//! Several tags that a hand holds, and the numbers of those that were posted together.

use crate::allocator::HeldMask;
use crate::error::{Error, Result};
use crate::hand::Hand;
use crate::tag::Tag;
use core::fmt;
use core::iter::{from_fn, successors};

/// The numbers of several tags: what [`Batch::post`] returns and [`Hand::take_batch`] takes. It holds no tag, so it can
/// be copied, sent, and made of two numbers.
#[derive(Clone, Copy, Default)]
pub struct Numbers {
    first: u32,
    mask: u64,
}

impl Numbers {
    /// Makes the numbers of a mask: if bit `i` is 1, the number `first + i` is one of them.
    #[must_use]
    pub fn new(first: u32, mask: u64) -> Numbers {
        Numbers { first, mask }
    }

    /// Returns the number of bit 0 of the mask, whether or not it is one of them.
    #[must_use]
    pub fn first(&self) -> u32 {
        self.first
    }

    /// Returns the mask.
    #[must_use]
    pub fn mask(&self) -> u64 {
        self.mask
    }

    /// Returns the numbers, in ascending order. What would be above `u32::MAX` is left out.
    pub fn iter(&self) -> impl Iterator<Item = u32> {
        let first = self.first;
        let without_lowest = |mask: &u64| Some(mask & mask.wrapping_sub(1));
        let masks = successors(Some(self.mask), without_lowest).take_while(|mask| *mask != 0);
        masks.filter_map(move |mask| first.checked_add(mask.trailing_zeros()))
    }

    /// Returns whether this is one of them.
    #[must_use]
    pub fn has(&self, number: u32) -> bool {
        let bit = number.wrapping_sub(self.first);
        bit < u64::BITS && self.mask >> bit & 1 == 1
    }
}

impl fmt::Debug for Numbers {
    fn fmt(&self, f: &mut fmt::Formatter<'_>) -> fmt::Result {
        f.debug_list().entries(self.iter()).finish()
    }
}

/// Ordinary tags that a hand holds. Dropping the batch gives all of them back, in one step for each word;
/// [`get_batch`](Hand::get_batch) takes those of one word.
#[must_use = "the tags go back at once"]
pub struct Batch<'a, T = ()> {
    hand: &'a Hand<T>,
    held: HeldMask,
}

impl<'a, T> Batch<'a, T> {
    pub(crate) fn new(hand: &'a Hand<T>, held: HeldMask) -> Batch<'a, T> {
        Batch { hand, held }
    }

    /// Returns the numbers of the tags, in ascending order.
    pub fn numbers(&self) -> impl Iterator<Item = u32> {
        self.held.numbers().iter()
    }

    /// Returns whether a tag is one of them.
    #[must_use]
    pub fn has(&self, number: u32) -> bool {
        self.held.numbers().has(number)
    }

    /// Returns the value beside one of the tags, or `None` if that is no tag of the batch.
    ///
    /// ```
    /// # use tags::{Options, Pool};
    /// # fn main() -> tags::Result<()> {
    /// let pool = Pool::open_with(&Options::new(16, 1), |number| number * 10)?;
    /// let hand = pool.join()?;
    /// let mut batch = hand.get_batch(3)?.unwrap();
    /// *batch.value_mut(1).unwrap() += 1;
    /// assert_eq!((batch.value(1), batch.value(3)), (Some(&11), None));
    /// # Ok(())
    /// # }
    /// ```
    #[must_use]
    pub fn value(&self, number: u32) -> Option<&T> {
        self.hand.member.set().value_in(&self.held, number)
    }

    /// Returns the value beside one of the tags, to be changed.
    #[must_use]
    pub fn value_mut(&mut self, number: u32) -> Option<&mut T> {
        self.hand.member.set().value_in_mut(&mut self.held, number)
    }

    /// Returns the value of the slot of one of the tags, or `None` if that is no tag of the batch.
    ///
    /// ```
    /// # use tags::{Options, Pool};
    /// # fn main() -> tags::Result<()> {
    /// let pool = Pool::open(&Options::new(16, 1))?;
    /// let hand = pool.join()?;
    /// let batch = hand.get_batch(3)?.unwrap();
    /// batch.write(1, 70);
    /// assert_eq!((batch.read(1), batch.read(3)), (Some(70), None));
    /// # Ok(())
    /// # }
    /// ```
    #[must_use]
    pub fn read(&self, number: u32) -> Option<u64> {
        self.hand.member.read_in(&self.held, number)
    }

    /// Writes the slot of one of the tags, and returns the former value, or `None` if that is no tag of the batch.
    pub fn write(&self, number: u32, value: u64) -> Option<u64> {
        self.hand.member.write_in(&self.held, number, value)
    }

    /// Publishes the note of one of the tags, as [`Tag::note`] does. [`NoSuchTag`](Error::NoSuchTag) means that it is no tag
    /// of the batch.
    ///
    /// ```
    /// # use tags::{Error, Options, Pool};
    /// # fn main() -> tags::Result<()> {
    /// let pool = Pool::open(&Options { notes: true, ..Options::new(16, 1) })?;
    /// let hand = pool.join()?;
    /// let batch = hand.get_batch(3)?.unwrap();
    /// assert_eq!((batch.note(1, 70), batch.note(3, 70)), (Ok(()), Err(Error::NoSuchTag)));
    /// assert_eq!(pool.noted_tags()?.filter_map(|(_, note)| note).count(), 1);
    /// # Ok(())
    /// # }
    /// ```
    pub fn note(&self, number: u32, value: u64) -> Result<()> {
        if !self.has(number) {
            return Err(Error::NoSuchTag);
        }
        self.hand.member.note(number, self.hand.note_of(value))
    }

    /// Splits the first tag off, which is given back on its own; what is left goes back in one step. `None` means that
    /// nothing is left.
    ///
    /// ```
    /// # use tags::{Options, Pool};
    /// # fn main() -> tags::Result<()> {
    /// let pool = Pool::open(&Options::new(16, 1))?;
    /// let hand = pool.join()?;
    /// let mut batch = hand.get_batch(3)?.unwrap();
    /// let first = batch.pop().unwrap();
    /// assert!(first.number() == 0 && batch.numbers().eq([1, 2]));
    /// # Ok(())
    /// # }
    /// ```
    pub fn pop(&mut self) -> Option<Tag<'a, T>> {
        self.remove(self.numbers().next()?)
    }

    /// Splits the tag with this number off, which is given back on its own, as when its request ends before the others.
    /// `None` means that the batch does not have it.
    ///
    /// ```
    /// # use tags::{Options, Pool};
    /// # fn main() -> tags::Result<()> {
    /// let pool = Pool::open(&Options::new(16, 1))?;
    /// let hand = pool.join()?;
    /// let mut batch = hand.get_batch(3)?.unwrap();
    /// drop(batch.remove(1));
    /// assert!(batch.numbers().eq([0, 2]) && batch.remove(1).is_none());
    /// # Ok(())
    /// # }
    /// ```
    pub fn remove(&mut self, number: u32) -> Option<Tag<'a, T>> {
        let held = self.held.remove(number)?;
        Some(Tag::new(self.hand, held))
    }

    /// Offers all tags, with their slots and their values, to all hands of the pool, and returns their numbers: for
    /// [`take_batch`](Hand::take_batch), and each can be [taken](Hand::take) alone, too.
    ///
    /// ```
    /// # use tags::{Error, Options, Pool};
    /// # fn main() -> tags::Result<()> {
    /// let pool = Pool::open(&Options::new(16, 2))?;
    /// let (first, second) = (pool.join()?, pool.join()?);
    /// let batch = first.get_batch(3)?.unwrap();
    /// batch.write(2, 70);
    /// let numbers = batch.post();
    /// assert_eq!(second.take_batch(numbers)?.read(2), Some(70));
    /// assert_eq!(second.take_batch(numbers).unwrap_err(), Error::NotPosted);
    /// # Ok(())
    /// # }
    /// ```
    #[must_use = "the tags stay posted until a hand takes these numbers"]
    pub fn post(mut self) -> Numbers {
        let posted = self.hand.member.post_mask(self.held.pass());
        self.hand.settle(self.hand.after_giving(posted))
    }

    /// Splits the batch into tags, each of which is given back on its own; those that nobody asks for go back in one
    /// step.
    ///
    /// ```
    /// # use tags::{Options, Pool};
    /// # fn main() -> tags::Result<()> {
    /// let pool = Pool::open(&Options::new(16, 1))?;
    /// let hand = pool.join()?;
    /// for tag in hand.get_batch(3)?.unwrap().into_tags() {
    ///     tag.write(70);
    /// }
    /// # Ok(())
    /// # }
    /// ```
    pub fn into_tags(mut self) -> impl Iterator<Item = Tag<'a, T>> {
        from_fn(move || self.pop())
    }
}

impl<T> Drop for Batch<'_, T> {
    #[inline]
    fn drop(&mut self) {
        if !self.held.is_empty() {
            let freed = self.hand.member.clear_mask(self.held.pass());
            self.hand.see_to_and_wake(freed);
        }
    }
}

impl<T> fmt::Debug for Batch<'_, T> {
    fn fmt(&self, f: &mut fmt::Formatter<'_>) -> fmt::Result {
        f.debug_list().entries(self.numbers()).finish()
    }
}
