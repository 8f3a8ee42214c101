// Made of crates/loop_device/src/device_queue.rt, where the contracts are, by rust/generate.

//! The device queue, through which submitters pass tags to completers.

use crate::base::queue::{Pass, RuledArrayQueue};
use crate::base::sleep::Wait;
use core::sync::atomic::AtomicBool;
use core::sync::atomic::Ordering::SeqCst;

/// The queue of tags that are posted and not yet taken.
pub(crate) type DeviceQueue = RuledArrayQueue<u32>;

/// What a thread read of the flag before a pop. Only a reading makes it, and each pop uses one up.
pub(crate) struct Closing {
    /// Whether the flag was set.
    seen: bool,
}

impl Closing {
    /// Reads the flag, which is set once nothing more is pushed.
    pub(crate) fn read(closed: &AtomicBool) -> Closing {
        Closing {
            seen: closed.load(SeqCst),
        }
    }
}

/// The flag was read set, and a later pop found nothing. Only a pop makes it.
pub(crate) struct Drained {
    closing: Closing,
}

/// What a pop found.
pub(crate) enum Popped {
    /// The oldest tag.
    Tag(u32),
    /// Nothing; more may be pushed.
    Empty,
    /// Nothing, after the flag was read set.
    Last(Drained),
}

/// Pushes a tag. If the queue is full, the tag is returned as the error.
pub(crate) fn push<W: Wait>(rt: &W, queue: &DeviceQueue, pass: &mut Pass<u32>, tag: u32) -> Result<(), u32> {
    queue.push_as(rt, pass, tag)
}

/// Pops the oldest tag of the queue, if there is one, after the flag was read.
pub(crate) fn pop<W: Wait>(rt: &W, queue: &DeviceQueue, pass: &mut Pass<u32>, closing: Closing) -> Popped {
    match queue.pop_as(rt, pass) {
        Some(tag) => Popped::Tag(tag),
        None => {
            if closing.seen {
                Popped::Last(Drained { closing })
            } else {
                Popped::Empty
            }
        }
    }
}
