// Made of crates/tag_queue/src/lib.rt, where the contracts are, by rust/generate.

//! Tags with completions counted in batches that wake waiters: a pool, a charge book and wait groups, behind one handle for
//! each thread. It is modelled on Linux's `sbitmap_queue`.

mod clears;
mod fault;
mod gather;
mod gets;
mod hand;
mod looks;
mod opens;
mod queue;
mod resizes;
mod room;
mod slots;
mod waits;

pub use crate::proved::step_ledger::{GatherCause, Numbered};
pub use crate::proved::tag_pool::{Found, Kind, Options, ResizeCause, Shown, TagFault, Totals};
pub use crate::proved::wake_book::{Count, Grants, Left, Report, Ring, Waking, MAX_CAP};
pub use fault::{QueueOpenFault, WaitFault};
pub use gather::{QueueGatherFault, QueueTotals};
pub use hand::QueueHand;
pub use queue::Queue;
pub use resizes::QueueResizeFault;
pub use waits::Wakes;
