//! Errors: why calls are refused.

use crate::pool::Pool;
use crate::tag::Tag;
use alloc::boxed::Box;
use core::fmt;

/// The result of a call that can be refused.
pub type Result<T> = core::result::Result<T, Error>;

/// Why a call was refused. A refused call changes nothing.
#[derive(Clone, Copy, Debug, PartialEq, Eq, Hash)]
#[non_exhaustive]
pub enum Error {
    /// The tag is out of range, or the pool has no ordinary tag to wait for.
    NoSuchTag,
    /// The pool was opened without reserved tags.
    NoReserved,
    /// This hand does not hold the tag, or the tag has a guard already.
    NotHeld,
    /// The tag is not posted, or another hand took it first, or it is in a queue.
    NotPosted,
    /// 0 tags at once, or more than the pool has ordinary ones.
    BadCount,
    /// A depth of 0, or one below the pool's [`min_shallow`](crate::Options::min_shallow).
    TooShallow,
    /// The call could take the hand past its limit, 2^48 ordinary and 2^48 reserved tags in its life.
    Spent,
    /// A future of the hand waits.
    Waiting,
    /// All hands of the pool are out: joined, and not dropped.
    NoHand,
    /// Some hands of the pool are out: joined, and not dropped.
    HandsOut,
    /// A slice with fewer bits than the pool has tags.
    TooSmall,
    /// Out of memory.
    NoMemory,
    /// More than 10,240 tags.
    TotalTooLarge,
    /// More reserved tags than tags.
    ReservedTooLarge,
    /// A shift above 6.
    ShiftTooLarge,
    /// 0 hands, or more than 64.
    BadHandCount,
    /// Tags of the pool are held or posted.
    InUse,
    /// A cache of more than 64 tags.
    CacheTooLarge,
    /// [`Pool::stop`] ended all waits.
    Stopped,
    /// The pool was opened without [`notes`](crate::Options::notes).
    NoNotes,
    /// More than 64 queues.
    BadQueueCount,
    /// The pool was opened with fewer [`queues`](crate::Options::queues).
    NoSuchQueue,
    /// A status that no call of this crate should return.
    Unexpected(i32),
}

/// The status of each error, which the C library has too, and what it says.
const STATUSES: [(Error, i32, &str); 22] = [
    (
        Error::NoSuchTag,
        -1,
        "the pool has no such tag: beyond its total, of another pool, or not ordinary where the call needs that",
    ),
    (Error::NoReserved, -2, "the pool was opened without reserved tags"),
    (
        Error::NotHeld,
        -3,
        "this hand does not hold the tag: it was given back, posted or never got",
    ),
    (
        Error::NotPosted,
        -4,
        "the tag is not posted, or it is in a queue, or another hand took it first",
    ),
    (
        Error::BadCount,
        -5,
        "a batch of 0 tags, a list of more than 64, or more tags at once than are ordinary",
    ),
    (Error::TooShallow, -6, "the depth is 0, or below the pool's min_shallow"),
    (
        Error::Spent,
        -7,
        "the hand could take more than 2^48 ordinary or reserved tags in its life",
    ),
    (Error::Waiting, -8, "the hand waits already"),
    (Error::NoHand, -14, "all hands of the pool are out"),
    (Error::HandsOut, -15, "some hands of the pool have not left"),
    (Error::TooSmall, -17, "the array has fewer bits than the pool has tags"),
    (Error::NoMemory, -21, "out of memory"),
    (Error::TotalTooLarge, -22, "a pool has at most 10,240 tags"),
    (
        Error::ReservedTooLarge,
        -23,
        "a pool has at most as many reserved tags as tags",
    ),
    (
        Error::ShiftTooLarge,
        -24,
        "the shift is at most 6, which is 64 tags per word",
    ),
    (Error::BadHandCount, -25, "a pool has from 1 to 64 hands"),
    (Error::InUse, -29, "tags are held or posted"),
    (Error::CacheTooLarge, -35, "a hand keeps at most 64 tags in its cache"),
    (Error::Stopped, -36, "the pool was stopped, which ends all waits"),
    (Error::NoNotes, -37, "the pool was opened without notes"),
    (Error::BadQueueCount, -38, "a pool has at most 64 queues"),
    (Error::NoSuchQueue, -39, "the pool has no such queue"),
];

impl Error {
    fn entry(self) -> Option<&'static (Error, i32, &'static str)> {
        STATUSES.iter().find(|it| it.0 == self)
    }

    /// Returns the status of this error in the C library's tags.h.
    #[must_use]
    pub fn status(self) -> i32 {
        match self {
            Error::Unexpected(status) => status,
            _ => self.entry().map_or(0, |it| it.1),
        }
    }
}

impl fmt::Display for Error {
    fn fmt(&self, f: &mut fmt::Formatter<'_>) -> fmt::Result {
        f.write_str(self.entry().map_or("there is no such status", |it| it.2))
    }
}

impl core::error::Error for Error {}

/// A pool that could not be closed. The pool is unchanged. Where this is turned into its [`Error`], as by `?`, the pool
/// is dropped.
pub struct CloseError<T = ()> {
    /// The reason.
    pub error: Error,
    /// The pool.
    pub pool: Pool<T>,
}

impl<T> fmt::Debug for CloseError<T> {
    fn fmt(&self, f: &mut fmt::Formatter<'_>) -> fmt::Result {
        let mut shown = f.debug_struct("CloseError");
        shown.field("error", &self.error).finish_non_exhaustive()
    }
}

impl<T> fmt::Display for CloseError<T> {
    fn fmt(&self, f: &mut fmt::Formatter<'_>) -> fmt::Result {
        self.error.fmt(f)
    }
}

impl<T> core::error::Error for CloseError<T> {}

impl<T> From<CloseError<T>> for Error {
    fn from(refused: CloseError<T>) -> Error {
        refused.error
    }
}

/// A tag that could not be submitted. Nothing has changed, and its hand holds it. Dropping this gives the tag back, also where
/// it is turned into its [`Error`], as by `?`.
///
/// It borrows the hand, so a function could not return it: it is no error itself, and `?` boxes its [`Error`].
///
/// ```
/// # use tags::{Options, Pool};
/// fn main() -> Result<(), Box<dyn std::error::Error>> {
///     let pool = Pool::open(&Options { queues: 1, ..Options::new(4, 1) })?;
///     let hand = pool.join()?;
///     hand.get_blocking()?.submit(0)?;
///     Ok(())
/// }
/// ```
pub struct SubmitError<'a, T = ()> {
    /// The reason.
    pub error: Error,
    /// The tag.
    pub tag: Tag<'a, T>,
}

impl<T> fmt::Debug for SubmitError<'_, T> {
    fn fmt(&self, f: &mut fmt::Formatter<'_>) -> fmt::Result {
        f.debug_struct("SubmitError")
            .field("error", &self.error)
            .field("tag", &self.tag)
            .finish()
    }
}

impl<T> fmt::Display for SubmitError<'_, T> {
    fn fmt(&self, f: &mut fmt::Formatter<'_>) -> fmt::Result {
        self.error.fmt(f)
    }
}

impl<T> From<SubmitError<'_, T>> for Error {
    fn from(refused: SubmitError<'_, T>) -> Error {
        refused.error
    }
}

impl<T> From<SubmitError<'_, T>> for Box<dyn core::error::Error> {
    fn from(refused: SubmitError<'_, T>) -> Self {
        refused.error.into()
    }
}

impl<T> From<SubmitError<'_, T>> for Box<dyn core::error::Error + Send + Sync> {
    fn from(refused: SubmitError<'_, T>) -> Self {
        refused.error.into()
    }
}
