//! A pool of tags that threads share without a lock.
//!
//! A tag is a small number with a slot of 64 bits for whoever holds it. Each thread takes tags from a [`Pool`] through
//! a [`Hand`] of its own, and dropping a [`Tag`] gives it back. The allocator below is proved: under every schedule no
//! tag and no slot ever has two holders. It is proved as Rattle source, of which its Rust is generated; this interface
//! is written by hand, and tested.
//!
//! ```
//! use tags::{Options, Pool};
//!
//! # fn main() -> Result<(), Box<dyn std::error::Error>> {
//! let pool = Pool::open(&Options::new(16, 2))?;
//! let hand = pool.join()?;
//! if let Some(tag) = hand.get()? {
//!     tag.write(70);
//!     assert_eq!((tag.number(), tag.read()), (0, 70));
//! } // here the tag goes back
//! drop(hand);
//! let totals = pool.close()?;
//! assert_eq!((totals.got, totals.back), (1, 1));
//! # Ok(())
//! # }
//! ```
//!
//! A [`Tag`] borrows its hand. To keep a tag in a struct, or to hold it across an await, take it from a [`SharedHand`],
//! whose [`OwnedTag`]s borrow nothing; and where there are more threads than hands, or they come and go, from
//! [`SharedHands`]. [`Tag::submit`] puts a tag into a queue of the pool, of which another thread takes the next one by
//! [`Hand::next`], or sleeps until there is one. [`Pool::open_with`] puts a value of any type beside each tag, for whoever holds
//! the tag. The examples are an I/O queue of threads, tasks on a small executor, and threads that copy a file.
//!
//! # Memory
//!
//! These allocate, and are refused with [`NoMemory`](Error::NoMemory) where that fails: opening, joining, resizing and
//! sharing, [`Hand::get_many`], [`Pool::drain_list`], and the first use of a queue by a hand. Rust's library ends the
//! program instead where it can't make an `Arc`, as of a pool, of its tags or of a [`SharedHand`], or the place of a
//! future that waits. A thread that sleeps behind a [`SharedHand`], or behind [`SharedHands`], is such a future; one
//! that sleeps with a [`Hand`] allocates nothing, and neither does any other call.
//!
//! # Without `std`
//!
//! With `default-features = false` the crate needs `core` and `alloc` alone. How threads sleep and are woken is then
//! told by whoever implements [`Sleeper`], such as a kernel; a pool that is opened without one spins.
#![no_std]
#![deny(missing_docs, unsafe_op_in_unsafe_fn)]

extern crate alloc;
#[cfg(feature = "std")]
extern crate std;

mod allocator;
#[allow(dead_code, unused_imports, reason = "the interface needs a part of it")]
mod base;
mod batch;
mod bell;
mod cells;
mod error;
mod future;
mod gate;
mod hand;
mod held;
mod lists;
mod notes;
mod options;
mod owned;
mod pool;
#[allow(dead_code, unused_imports, reason = "the interface makes a part of its calls")]
#[allow(
    clippy::complexity,
    clippy::perf,
    clippy::style,
    reason = "Rattle decides how its source is written"
)]
mod proved;
mod queue;
mod queues;
mod sets;
mod shared;
mod shared_hands;
mod side;
mod sleep;
mod tag;
mod thread;
mod waits;

pub use batch::{Batch, Numbers};
pub use error::{CloseError, Error, Result, SubmitError};
pub use future::{GetAsync, GetAsyncOwned};
pub use hand::Hand;
pub use notes::Note;
pub use options::{Kind, Options, Shift, Sizes, Totals};
pub use owned::OwnedTag;
pub use pool::Pool;
pub use queues::NextAsync;
pub use shared::SharedHand;
pub use shared_hands::SharedHands;
pub use sleep::{default_sleeper, Sleeper};
pub use tag::Tag;
