//! Refusals of the proved calls as errors of this crate.

use crate::error::Error;
use crate::proved::tag_pool::{OpenFault, ResizeCause, TagFault};

impl From<TagFault> for Error {
    #[inline]
    fn from(fault: TagFault) -> Error {
        match fault {
            TagFault::NoSuchTag => Error::NoSuchTag,
            TagFault::NoReserved => Error::NoReserved,
            TagFault::NotHeld => Error::NotHeld,
            TagFault::NotPosted => Error::NotPosted,
            TagFault::BadCount => Error::BadCount,
            TagFault::TooShallow => Error::TooShallow,
            TagFault::Spent => Error::Spent,
        }
    }
}

impl From<OpenFault> for Error {
    fn from(fault: OpenFault) -> Error {
        match fault {
            OpenFault::Memory => Error::NoMemory,
            OpenFault::TotalTooLarge => Error::TotalTooLarge,
            OpenFault::ReservedTooLarge => Error::ReservedTooLarge,
            OpenFault::ShiftTooLarge => Error::ShiftTooLarge,
            OpenFault::CallerCount => Error::BadHandCount,
            // It is as long as it may be.
            OpenFault::LifeTooLong => Error::Unexpected(-26),
        }
    }
}

impl From<ResizeCause> for Error {
    fn from(cause: ResizeCause) -> Error {
        match cause {
            ResizeCause::Missing(_) => Error::HandsOut,
            ResizeCause::DepthTooLarge => Error::TotalTooLarge,
            ResizeCause::InUse(_, _) => Error::InUse,
            // A hand that leaves does not wait.
            ResizeCause::Waiting(_) => Error::Unexpected(-30),
            ResizeCause::Memory => Error::NoMemory,
        }
    }
}
