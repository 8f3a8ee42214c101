//! What a hand does with tags that it holds, and how it comes by those of other hands.

use crate::batch::{Batch, Numbers};
use crate::error::Result;
use crate::hand::Hand;
use crate::tag::Tag;

impl<T> Hand<T> {
    /// Returns a guard for a tag that this hand holds without one, as when the number that
    /// [`into_number`](Tag::into_number) returned comes back with a completion. Any other number is refused with
    /// [`NotHeld`](crate::Error::NotHeld).
    ///
    /// ```
    /// # use tags::{Error, Options, Pool};
    /// # fn main() -> tags::Result<()> {
    /// let pool = Pool::open(&Options::new(4, 1))?;
    /// let hand = pool.join()?;
    /// let number = hand.get_blocking()?.into_number();
    /// assert_eq!(hand.holds(number), Ok(true));
    /// let tag = hand.claim(number)?;
    /// assert_eq!(hand.claim(number).unwrap_err(), Error::NotHeld);
    /// # drop(tag);
    /// # Ok(())
    /// # }
    /// ```
    pub fn claim(&self, number: u32) -> Result<Tag<'_, T>> {
        Ok(Tag::new(self, self.member.claim(number)?))
    }

    /// Returns whether this hand holds the tag with this number.
    ///
    /// ```
    /// # use tags::{Error, Options, Pool};
    /// # fn main() -> tags::Result<()> {
    /// let pool = Pool::open(&Options::new(4, 1))?;
    /// let hand = pool.join()?;
    /// let tag = hand.get_blocking()?;
    /// assert_eq!((hand.holds(0), hand.holds(1)), (Ok(true), Ok(false)));
    /// assert_eq!(hand.holds(4), Err(Error::NoSuchTag));
    /// # drop(tag);
    /// # Ok(())
    /// # }
    /// ```
    pub fn holds(&self, number: u32) -> Result<bool> {
        self.member.holds(number)
    }

    /// Takes a tag that a hand of this pool has [posted](Tag::post), with its slot and its value. One that is in a queue
    /// only [`next`](Hand::next) takes: it is refused with [`NotPosted`](crate::Error::NotPosted), as any is that is not
    /// posted.
    ///
    /// ```
    /// # use tags::{Error, Options, Pool};
    /// # fn main() -> tags::Result<()> {
    /// let pool = Pool::open(&Options::new(4, 2))?;
    /// let (first, second) = (pool.join()?, pool.join()?);
    /// let tag = first.get_blocking()?;
    /// tag.write(70);
    /// let number = tag.post();
    /// assert_eq!(second.take(number)?.read(), 70);
    /// assert_eq!(second.take(number).unwrap_err(), Error::NotPosted);
    /// # Ok(())
    /// # }
    /// ```
    pub fn take(&self, number: u32) -> Result<Tag<'_, T>> {
        Ok(Tag::new(self, self.member.take(number)?))
    }

    /// Takes ordinary tags that hands of this pool have posted, [together](Batch::post) or each alone, with their slots
    /// and their values: all of them or none. If one is not posted, those taken before it are posted again; another
    /// hand may have found one of them not posted meanwhile. Refusals: [`BadCount`](crate::Error::BadCount) if there is
    /// no number, [`NoSuchTag`](crate::Error::NoSuchTag) if one is out of range or reserved, and
    /// [`NotPosted`](crate::Error::NotPosted) also if one is in a queue.
    pub fn take_batch(&self, posted: Numbers) -> Result<Batch<'_, T>> {
        let taken = self.settle(self.after_giving(self.member.take_mask(posted)));
        Ok(Batch::new(self, taken?))
    }
}
