//! The options of a pool, and what its calls report.

/// How many tags there are in each word of a set.
///
/// ```
/// # use tags::{Options, Pool, Shift};
/// # fn main() -> tags::Result<()> {
/// let many = Options::new(1024, 64);
/// assert_eq!(Pool::open(&many)?.batch_limit(), 16);
/// let large = Options { shift: Shift::AsKernel, ..many };
/// assert_eq!(Pool::open(&large)?.batch_limit(), 64);
/// let small = Options { shift: Shift::Of(3), ..many };
/// assert_eq!(Pool::open(&small)?.batch_limit(), 8);
/// # Ok(())
/// # }
/// ```
#[derive(Clone, Copy, Debug, Default, PartialEq, Eq)]
pub enum Shift {
    /// As many as possible, up to 64, with which the set still has as many whole words as the pool has hands, and at
    /// least 4, so that threads seldom share a word: 1 if there are fewer tags than hands, and 64 for fewer than 4
    /// tags. With 64 tags for each hand these are the words of `AsKernel`.
    #[default]
    ByHands,
    /// The same for 4 hands, whatever their number, as in the kernel's sbitmap. With less than 64 tags for each of
    /// more than 4 hands words are larger than by `ByHands`, and so are batches; and a thread that always holds dozens
    /// of tags finds the next one sooner.
    AsKernel,
    /// The binary logarithm of the number, at most 6.
    Of(u32),
}

/// The options of a new pool. Set at least `total` and `hands`: by default there are no tags and no hands.
///
/// ```
/// # use tags::{Error, Options, Pool};
/// let options = Options { total: 16, hands: 2, ..Options::default() };
/// assert_eq!(options, Options::new(16, 2));
/// assert_eq!(Pool::open(&Options::default()).unwrap_err(), Error::BadHandCount);
/// ```
#[derive(Clone, Copy, Debug, Default, PartialEq, Eq)]
pub struct Options {
    /// Number of tags, including the reserved ones, at most 10,240.
    pub total: u32,
    /// How many of them are reserved: tags 0 to `reserved - 1`.
    pub reserved: u32,
    /// How many tags there are in each word. By default as many as leave a word for each hand.
    pub shift: Shift,
    /// The least depth that [`get_shallow`](crate::Hand::get_shallow) accepts. `None` accepts any from 1.
    pub min_shallow: Option<u32>,
    /// Number of hands, 1 to 64.
    pub hands: u32,
    /// Whether a get starts after the tag that the hand won last (and at the first tag after the last but one). So a
    /// tag is reused late, though not as late as possible: a tag that was given back is free again once its word has no
    /// free tag left.
    pub round_robin: bool,
    /// How many of the tags that it gives back each hand may keep for its next gets, at most 64; 0 for none. A get of a
    /// kept tag makes no atomic read-modify-write. No other hand finds a kept tag until this one gives it back: when it
    /// gives back a tag while somebody waits, by a [`flush`](crate::Hand::flush), or when it is dropped. So flush
    /// before the thread goes idle or sleeps.
    ///
    /// ```
    /// # use tags::{Error, Options, Pool};
    /// # fn main() -> tags::Result<()> {
    /// let pool = Pool::open(&Options { cache: 8, ..Options::new(1, 2) })?;
    /// let (first, second) = (pool.join()?, pool.join()?);
    /// drop(first.get()?);
    /// assert!(second.get()?.is_none());
    /// first.flush();
    /// assert!(second.get()?.is_some());
    /// let large = Options { cache: 65, ..Options::new(1, 2) };
    /// assert_eq!(Pool::open(&large).unwrap_err(), Error::CacheTooLarge);
    /// # Ok(())
    /// # }
    /// ```
    pub cache: u32,
    /// Whether a hand keeps tags only while it holds another one that it got. A hand that keeps tags then always has
    /// one to give back, so nobody waits for ever for a kept tag.
    pub keep_while_holding: bool,
    /// Whether tags have notes, which anybody may read: see [`Tag::note`](crate::Tag::note). The pool takes 40 bytes more
    /// for each tag, and a tag that goes back is first looked at for one.
    pub notes: bool,
    /// How many queues of submitted tags the pool has, at most 64, which are numbered from 0: see
    /// [`Tag::submit`](crate::Tag::submit) and [`Hand::next`](crate::Hand::next). Each of them takes as much memory as the pool
    /// does without it, and up to 20 bytes more for each tag.
    ///
    /// ```
    /// # use tags::{Error, Options, Pool};
    /// let many = Options { queues: 65, ..Options::new(4, 2) };
    /// assert_eq!(Pool::open(&many).unwrap_err(), Error::BadQueueCount);
    /// ```
    pub queues: u32,
}

impl Options {
    /// Options for `total` ordinary tags and `hands` hands, with the defaults for the rest.
    #[must_use]
    pub fn new(total: u32, hands: u32) -> Options {
        Options {
            total,
            reserved: 0,
            shift: Shift::ByHands,
            min_shallow: None,
            hands,
            round_robin: false,
            cache: 0,
            keep_while_holding: false,
            notes: false,
            queues: 0,
        }
    }
}

/// One of the two sets of a pool's tags.
#[derive(Clone, Copy, Debug, PartialEq, Eq)]
pub enum Kind {
    /// The tags that [`get`](crate::Hand::get) takes.
    Ordinary,
    /// The tags that [`get_reserved`](crate::Hand::get_reserved) takes.
    Reserved,
}

/// The sizes of a set, and sums over its words.
#[derive(Clone, Copy, Debug, Default, PartialEq, Eq)]
pub struct Sizes {
    /// Number of tags in the set.
    pub depth: u32,
    /// Tags found held, kept or posted.
    pub busy: u32,
    /// Tags found given back but not yet swept for reuse.
    pub cleared: u32,
    /// Tags per word. The last word can have fewer.
    pub bits_per_word: u32,
    /// Number of words of the set.
    pub words: u32,
}

/// Sums over all hands of a pool: `got == back + held + posted`. A kept tag that its hand gets again is not counted.
#[derive(Clone, Copy, Debug, Default, PartialEq, Eq)]
pub struct Totals {
    /// Tags taken from the pool.
    pub got: u64,
    /// Tags given back to it.
    pub back: u64,
    /// Tags that a hand still holds.
    pub held: u64,
    /// Tags that are still posted.
    pub posted: u64,
}
