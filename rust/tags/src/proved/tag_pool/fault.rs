// Made of crates/tag_pool/src/fault.rt, where the contracts are, by rust/generate.

//! Why a call is refused.

use core::fmt;

/// Why a pool can't be opened. The causes are checked in this order, except that memory comes last.
#[derive(Clone, Copy, Debug, PartialEq, Eq)]
pub enum OpenFault {
    /// Out of memory.
    Memory,
    /// There would be more than 10,240 tags.
    TotalTooLarge,
    /// There would be more reserved tags than tags.
    ReservedTooLarge,
    /// The shift is above 6.
    ShiftTooLarge,
    /// The number of callers is not 1 to 64.
    CallerCount,
    /// The life is above 2^48 tags.
    LifeTooLong,
}

impl fmt::Display for OpenFault {
    fn fmt(&self, f: &mut fmt::Formatter<'_>) -> fmt::Result {
        match self {
            Self::Memory => f.write_str("out of memory"),
            Self::TotalTooLarge => f.write_str("more than 10240 tags"),
            Self::ReservedTooLarge => f.write_str("more reserved tags than tags"),
            Self::ShiftTooLarge => f.write_str("a shift above 6"),
            Self::CallerCount => f.write_str("the number of callers is not from 1 to 64"),
            Self::LifeTooLong => f.write_str("a life above 2^48 tags"),
        }
    }
}

impl core::error::Error for OpenFault {}

/// Why a call on a tag was refused.
#[derive(Clone, Copy, Debug, PartialEq, Eq)]
pub enum TagFault {
    /// No tag has this number.
    NoSuchTag,
    /// The caller does not hold the tag, or named it twice in one batch.
    NotHeld,
    /// The tag was not posted at the moment of the exchange.
    NotPosted,
    /// The number of tags is out of range: 1 to the bits of a word for a batch get, 1 to 64 for a batch clear.
    BadCount,
    /// The shallow depth is 0 or below the minimum shallow depth.
    TooShallow,
    /// The tags requested could exceed the caller's life, the number of tags that it may win in all.
    Spent,
    /// There are no reserved tags.
    NoReserved,
}

impl fmt::Display for TagFault {
    fn fmt(&self, f: &mut fmt::Formatter<'_>) -> fmt::Result {
        match self {
            Self::NoSuchTag => f.write_str("no tag has this number"),
            Self::NotHeld => f.write_str("the caller does not hold the tag, or named it twice"),
            Self::NotPosted => f.write_str("the tag is not posted"),
            Self::BadCount => f.write_str("the number of tags is out of range"),
            Self::TooShallow => f.write_str("the depth is 0, or below the minimum shallow depth"),
            Self::Spent => f.write_str("the caller could win more tags than its life allows"),
            Self::NoReserved => f.write_str("no tag is reserved"),
        }
    }
}

impl core::error::Error for TagFault {}
