// Made of crates/tag_queue/src/fault.rt, where the contracts are, by rust/generate.

//! Why a queue can't be opened, and why a call of its own is refused.

use crate::proved::tag_pool::OpenFault;
use core::fmt;

/// Why a queue can't be opened. The causes are checked in this order, except that memory comes last.
#[derive(Clone, Copy, Debug, PartialEq, Eq)]
pub enum QueueOpenFault {
    /// Out of memory.
    Memory,
    /// There would be more than 10,240 tags.
    TotalTooLarge,
    /// There would be more reserved tags than tags.
    ReservedTooLarge,
    /// The shift is above 6.
    ShiftTooLarge,
    /// The number of callers is not 1 to 64.
    CallerCount,
    /// The life is above 2^48 tags.
    LifeTooLong,
    /// The cap is above 2^56 completions.
    CapTooLarge,
}

impl fmt::Display for QueueOpenFault {
    fn fmt(&self, f: &mut fmt::Formatter<'_>) -> fmt::Result {
        match self {
            Self::Memory => f.write_str("out of memory"),
            Self::TotalTooLarge => f.write_str("more than 10240 tags"),
            Self::ReservedTooLarge => f.write_str("more reserved tags than tags"),
            Self::ShiftTooLarge => f.write_str("a shift above 6"),
            Self::CallerCount => f.write_str("the number of callers is not from 1 to 64"),
            Self::LifeTooLong => f.write_str("a life above 2^48 tags"),
            Self::CapTooLarge => f.write_str("a cap above 2^56 completions"),
        }
    }
}

impl core::error::Error for QueueOpenFault {}

impl From<OpenFault> for QueueOpenFault {
    fn from(fault: OpenFault) -> QueueOpenFault {
        match fault {
            OpenFault::Memory => QueueOpenFault::Memory,
            OpenFault::TotalTooLarge => QueueOpenFault::TotalTooLarge,
            OpenFault::ReservedTooLarge => QueueOpenFault::ReservedTooLarge,
            OpenFault::ShiftTooLarge => QueueOpenFault::ShiftTooLarge,
            OpenFault::CallerCount => QueueOpenFault::CallerCount,
            OpenFault::LifeTooLong => QueueOpenFault::LifeTooLong,
        }
    }
}

/// Why a call that waits in a group is refused.
#[derive(Clone, Copy, Debug, PartialEq, Eq)]
pub enum WaitFault {
    /// There is no ordinary tag to wait for.
    NoSuchTag,
    /// The caller is already in a wait group.
    Waiting,
    /// The caller is not in a wait group.
    NotWaiting,
    /// The caller could win more tags than its life allows.
    Spent,
}

impl fmt::Display for WaitFault {
    fn fmt(&self, f: &mut fmt::Formatter<'_>) -> fmt::Result {
        match self {
            Self::NoSuchTag => f.write_str("no ordinary tag exists"),
            Self::Waiting => f.write_str("the caller waits already"),
            Self::NotWaiting => f.write_str("the caller does not wait"),
            Self::Spent => f.write_str("the caller could win more tags than its life allows"),
        }
    }
}

impl core::error::Error for WaitFault {}
