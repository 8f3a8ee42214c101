// Made of crates/tag_script/src/fault.rt, where the contracts are, by rust/generate.

//! Why a world was not opened.

use crate::proved::tag_queue::QueueOpenFault;

/// Why a world was not opened.
#[derive(Clone, Copy, Debug, PartialEq, Eq)]
pub(crate) enum OpenFault {
    /// Out of memory.
    Memory,
    /// The options are not legal.
    Setup(QueueOpenFault),
}
