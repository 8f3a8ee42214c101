// Made of crates/wake_book/src/waking.rt, where the contracts are, by rust/generate.

//! What becomes of the wakeups that a call granted: who wakes the sleepers, and what the call answers.

use crate::proved::wake_book::grants::{Grants, NO_GRANTS};
use crate::proved::wake_book::groups::{Groups, Waiter};

/// A way to pass on the wakeups that a call granted.
pub trait Waking {
    /// What the call answers.
    type Answer: Copy;

    /// Returns the answer of a call that granted nobody a wakeup.
    fn nobody() -> Self::Answer;

    /// Passes on the grants of the latest call, once, and returns the answer. This makes no step.
    fn tell(groups: &Groups, waiter: &mut Waiter, grants: Grants) -> Self::Answer;
}

/// Wakes one sleeper for each grant, in its group, and answers how many waiters were granted a wakeup.
pub struct Ring;

impl Waking for Ring {
    type Answer = u32;

    #[inline]
    fn nobody() -> u32 {
        0
    }

    #[inline]
    fn tell(groups: &Groups, waiter: &mut Waiter, grants: Grants) -> u32 {
        if grants.woken != 0 {
            groups.ring(waiter, grants);
        }
        grants.woken
    }
}

/// Wakes no sleeper, and answers how many waiters of each group were granted a wakeup. Waking them is left to the caller,
/// and no code that does it is pulled in.
pub struct Report;

impl Waking for Report {
    type Answer = Grants;

    #[inline]
    fn nobody() -> Grants {
        NO_GRANTS
    }

    #[inline]
    fn tell(_groups: &Groups, _waiter: &mut Waiter, grants: Grants) -> Grants {
        grants
    }
}

/// Like `Report`, but answers only how many waiters were granted a wakeup, for callers that wake threads by other means
/// and need not know their groups.
pub struct Count;

impl Waking for Count {
    type Answer = u32;

    #[inline]
    fn nobody() -> u32 {
        0
    }

    #[inline]
    fn tell(_groups: &Groups, _waiter: &mut Waiter, grants: Grants) -> u32 {
        grants.woken
    }
}
