// Made of crates/tag_script/src/outcomes.rt, where the contracts are, by rust/generate.

//! The outcomes of calls, as answers.

use crate::proved::tag_queue::{Left, ResizeCause, TagFault, WaitFault};
use crate::proved::tag_script::answer::Answer;

impl Answer {
    /// The answer of a get.
    pub(crate) fn to_get(outcome: Result<Option<u32>, TagFault>) -> Answer {
        outcome.map_or_else(Answer::Refused, Answer::Tag)
    }

    /// The answer of a batch get.
    pub(crate) fn to_batch(outcome: Result<Option<(u32, u64)>, TagFault>) -> Answer {
        outcome.map_or_else(Answer::Refused, Answer::Batch)
    }

    /// The answer of a call that wakes waiters, with their number.
    pub(crate) fn to_clear(outcome: Result<u32, TagFault>) -> Answer {
        outcome.map_or_else(Answer::Refused, Answer::Done)
    }

    /// The answer of a call that wakes nobody.
    pub(crate) fn to_done(outcome: Result<(), TagFault>) -> Answer {
        outcome.map_or_else(Answer::Refused, |()| Answer::Done(0))
    }

    /// The answer of a wait.
    pub(crate) fn to_wait(outcome: Result<u32, WaitFault>) -> Answer {
        outcome.map_or_else(Answer::NotWaited, Answer::Group)
    }

    /// The answer of the end of a wait.
    pub(crate) fn to_leave(outcome: Result<Left, WaitFault>) -> Answer {
        outcome.map_or_else(Answer::NotWaited, Answer::Left)
    }

    /// The answer of a resize.
    pub(crate) fn to_resize(outcome: Result<(), ResizeCause>) -> Answer {
        outcome.map_or_else(Answer::NotResized, |()| Answer::Done(0))
    }
}
