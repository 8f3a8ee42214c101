//! Reports without a hand.

use crate::allocator::MAX_TOTAL;
use crate::bell::numbers_in;
use crate::error::Result;
use crate::notes::{Found, Note, AT_ONCE};
use crate::options::{Kind, Sizes};
use crate::pool::Pool;

impl<T> Pool<T> {
    /// Sets bit `t % 64` of `into[t / 64]` for each busy tag `t`, clears every other bit, and returns how many tags are
    /// busy, as [`Hand::busy`](crate::Hand::busy) does. It needs no hand, so it works at any time, also while all hands
    /// are out.
    ///
    /// ```
    /// # use tags::{Options, Pool};
    /// # fn main() -> tags::Result<()> {
    /// let pool = Pool::open(&Options::new(4, 1))?;
    /// let hand = pool.join()?;
    /// let tag = hand.get_blocking()?;
    /// let mut busy = [0];
    /// assert_eq!(pool.busy(&mut busy), Ok(1));
    /// assert_eq!(busy, [1 << tag.number()]);
    /// # Ok(())
    /// # }
    /// ```
    pub fn busy(&self, into: &mut [u64]) -> Result<u32> {
        self.home.roster.lock().busy(into)
    }

    /// Returns the busy tags of both sets, in ascending order, for example to find requests that take too long. It
    /// needs no hand, works at any time, and allocates nothing. It looks at all tags at once; the iterator borrows
    /// nothing, so the loop may make any call.
    ///
    /// A tag that is busy from the beginning of this call until its end is there. While other threads work, a tag that
    /// has gone back may be there too, and any tag may go back, and have another user, while the iterator runs. A kept
    /// tag is there, and has no user. So look only at what is atomic, such as a `Vec` of atomics with the tag as the
    /// index, which holders set and reset, or at notes ([`noted_tags`](Pool::noted_tags)): a slot and a value are for
    /// whoever holds the tag.
    ///
    /// ```
    /// # use std::sync::atomic::{AtomicU64, Ordering::Relaxed};
    /// # use tags::{Options, Pool};
    /// # fn main() -> tags::Result<()> {
    /// let pool = Pool::open(&Options::new(4, 1))?;
    /// let begun = [const { AtomicU64::new(0) }; 4];
    /// let hand = pool.join()?;
    /// let tags = [hand.get_blocking()?, hand.get_blocking()?];
    /// begun[tags[1].number() as usize].store(50, Relaxed);
    /// let is_late = |tag: &u32| (1..60).contains(&begun[*tag as usize].load(Relaxed));
    /// assert_eq!(pool.busy_tags().find(is_late), Some(tags[1].number()));
    /// # Ok(())
    /// # }
    /// ```
    pub fn busy_tags(&self) -> impl Iterator<Item = u32> {
        let mut words = [0; MAX_TOTAL as usize / 64];
        let all = self.home.roster.lock().busy(&mut words);
        debug_assert!(all.is_ok(), "there is a bit for each tag");
        numbers_in(words)
    }

    /// Returns the busy tags with their notes, in ascending order, of a pool with [`notes`](crate::Options::notes): of a
    /// tag what its user published by [`note`](crate::Tag::note), or `None`, as of a tag that has just been got, or is
    /// kept. It needs no hand, works at any time, and allocates nothing. It looks at some tags at a time, when these come
    /// to their turn, and takes no lock between looks, so the loop may make any call.
    ///
    /// A note was that of the tag's user at one moment of the look: never that of one who had given the tag back before,
    /// nor the value of one note and the time of another. A tag that has a note all the while is there with one. Who sees
    /// a note sees what was written before it was published. The tag may have gone back since.
    ///
    /// ```
    /// # use std::time::Duration;
    /// # use tags::{default_sleeper, Options, Pool};
    /// # fn main() -> tags::Result<()> {
    /// let pool = Pool::open(&Options { notes: true, ..Options::new(4, 1) })?;
    /// let hand = pool.join()?;
    /// let (tag, _other) = (hand.get_blocking()?, hand.get_blocking()?);
    /// tag.note(2048)?;
    /// let now = default_sleeper().now();
    /// let mut noted = pool.noted_tags()?.filter_map(|(_, note)| note);
    /// assert!(noted.all(|note| note.value == 2048 && now - note.since < Duration::from_secs(60)));
    /// # Ok(())
    /// # }
    /// ```
    pub fn noted_tags(&self) -> Result<impl Iterator<Item = (u32, Option<Note>)> + '_> {
        let mut found: Found = [None; AT_ONCE];
        self.home.roster.lock().find_noted(0, &mut found)?;
        let mut at = 0;
        let mut next = 0;
        Ok(core::iter::from_fn(move || {
            if at == AT_ONCE {
                self.home.roster.lock().find_noted(next, &mut found).ok()?;
                at = 0;
            }
            let (tag, note) = found[at]?;
            (at, next) = (at + 1, tag + 1);
            Some((tag, note))
        }))
    }

    /// Returns the most tags that one [`Hand::get_batch`](crate::Hand::get_batch) takes: as many as a word has, also
    /// after a resize.
    ///
    /// ```
    /// # use tags::{Options, Pool};
    /// # fn main() -> tags::Result<()> {
    /// let pool = Pool::open(&Options::new(16, 1))?;
    /// assert_eq!(pool.batch_limit(), 4);
    /// assert_eq!(pool.join()?.get_batch(8)?.unwrap().numbers().count(), 4);
    /// # Ok(())
    /// # }
    /// ```
    #[must_use]
    pub fn batch_limit(&self) -> u32 {
        self.home.batch_limit
    }

    /// Returns the sizes of a set of tags, as [`Hand::show`](crate::Hand::show) does, but without a hand.
    #[must_use]
    pub fn show(&self, kind: Kind) -> Sizes {
        self.home.roster.lock().show(kind)
    }

    /// Returns how many tags are in a queue, of those that were [submitted](crate::Tag::submit) and that no hand has taken or is
    /// taking by [`next`](crate::Hand::next). It needs no hand, and works at any time. [`NoSuchQueue`](crate::Error::NoSuchQueue)
    /// means that the pool has fewer queues.
    ///
    /// ```
    /// # use tags::{Error, Options, Pool};
    /// # fn main() -> tags::Result<()> {
    /// let pool = Pool::open(&Options { queues: 2, ..Options::new(4, 1) })?;
    /// let hand = pool.join()?;
    /// hand.get_blocking()?.submit(1)?;
    /// assert_eq!([0, 1, 2].map(|queue| pool.queued(queue)), [Ok(0), Ok(1), Err(Error::NoSuchQueue)]);
    /// # Ok(())
    /// # }
    /// ```
    pub fn queued(&self, queue: u32) -> Result<u32> {
        let roster = self.home.roster.lock();
        Ok(roster.queues().line(queue)?.count())
    }

    /// Returns how many wait, as [`Hand::waiting`](crate::Hand::waiting) does, but without a hand.
    ///
    /// ```
    /// # use tags::{Options, Pool};
    /// # use std::thread;
    /// # fn main() -> tags::Result<()> {
    /// let pool = Pool::open(&Options::new(1, 2))?;
    /// let (first, second) = (pool.join()?, pool.join()?);
    /// let tag = first.get_blocking()?;
    /// thread::scope(|scope| {
    ///     scope.spawn(move || second.get_blocking().is_ok());
    ///     while pool.waiting() == 0 {
    ///         thread::yield_now();
    ///     }
    ///     drop(tag);
    /// });
    /// assert_eq!(pool.waiting(), 0);
    /// # Ok(())
    /// # }
    /// ```
    #[must_use]
    pub fn waiting(&self) -> u32 {
        self.home.count_waiting(self.home.roster.lock().queues())
    }
}
