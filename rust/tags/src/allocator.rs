//! The proved pool as the rest of the crate uses it: nothing else calls `proved`.
//!
//! Its calls have preconditions that plain Rust does not know. Here each is met, by a type or by a check: a [`Member`]
//! is a hand beside the tags that it was opened with, and a [`Held`] is a tag that its hand holds. `PRECONDITIONS.md`
//! lists them.

mod clears;
mod faults;
mod gets;
mod held;
mod looks;
mod member;
mod opens;
mod passing;
mod roster;
mod rounds;
mod told;
mod way;

pub(crate) use gets::Gotten;
pub(crate) use held::{Held, HeldMask};
pub(crate) use member::Member;
pub(crate) use roster::Roster;
pub(crate) use rounds::{Next, Turn, Waiter};
pub(crate) use told::{Due, Freed, Hands};

use crate::cells::Values;
use crate::notes::Notes;
use crate::options::Kind;
use crate::proved::tag_pool::Pool;
use crate::queues::Queues;

/// The most tags of a pool.
pub(crate) const MAX_TOTAL: u32 = crate::proved::tag_pool::MAX_DEPTH;

/// The most tags that a hand keeps.
const MAX_CACHE: u32 = 64;

// What is called often is `inline`, so that it has a copy in each unit of a program: rustc has a call of another one go
// through a pointer. What is to stay out of line there is `cold` as well.

/// The tags of a pool.
struct Core {
    tags: Pool<u64>,
    round_robin: bool,
}

/// The tags of a pool, with the values beside them. The hands that are out share them.
pub(crate) struct Set<T> {
    core: Core,
    values: Values<T>,
    /// `None` in a pool without notes.
    notes: Option<Notes>,
    queues: Queues,
}

impl<T> Set<T> {
    /// Number of tags of a set.
    pub fn depth(&self, kind: Kind) -> u32 {
        let reserved = self.core.tags.reserved();
        match kind {
            Kind::Ordinary => self.core.tags.depth() - reserved,
            Kind::Reserved => reserved,
        }
    }

    /// The queues of submitted tags.
    pub fn queues(&self) -> &Queues {
        &self.queues
    }

    /// The value beside a tag, for its guard.
    #[inline]
    pub fn value<'a>(&'a self, held: &'a Held) -> &'a T {
        self.values.of(held)
    }

    /// The value beside a tag, for its guard, to be changed.
    #[inline]
    pub fn value_mut<'a>(&'a self, held: &'a mut Held) -> &'a mut T {
        self.values.of_mut(held)
    }

    /// The value beside a tag of a batch, for its guard.
    pub fn value_in<'a>(&'a self, held: &'a HeldMask, number: u32) -> Option<&'a T> {
        self.values.of_one(held, number)
    }

    /// The value beside a tag of a batch, for its guard, to be changed.
    pub fn value_in_mut<'a>(&'a self, held: &'a mut HeldMask, number: u32) -> Option<&'a mut T> {
        self.values.of_one_mut(held, number)
    }
}
