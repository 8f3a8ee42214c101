// Made of crates/tag_pool/src/lib.rt, where the contracts are, by rust/generate.

//! Reserved and ordinary tags shared by threads: one range of numbers over two maps, behind one handle for each thread,
//! as in Linux's `blk_mq_tags`. Who waits for an ordinary tag waits by the bell.

mod bell;
mod clears;
mod fault;
mod gather;
mod gets;
mod hand;
mod kind;
mod loans;
mod looks;
mod meets;
mod opens;
mod options;
mod peeks;
mod pool;
mod resizes;
mod shown;
mod side;
mod sleeps;
mod slots;
mod usage;

pub use crate::proved::step_ledger::{GatherCause, Numbered};
pub use crate::proved::tag_bell::{Told, Turn, Woken};
pub use crate::proved::tag_core::Waiter;
pub use crate::proved::tag_layout::{MAX_DEPTH, MAX_SHIFT};
pub use crate::proved::tag_model::{Totals, MAX_CALLERS, MOST_WON};
pub use crate::proved::tag_search::{Found, Unfinished};
pub use clears::batches::MAX_BATCH;
pub use clears::lists::{are_below, are_distinct};
pub use fault::{OpenFault, TagFault};
pub use gather::PoolGatherFault;
pub use gets::rounds::{Next, Sleeper};
pub use gets::Got;
pub use hand::Hand;
pub use kind::Kind;
pub use looks::texts::{write_dump, write_show};
pub use options::Options;
pub use pool::Pool;
pub use resizes::{PoolResizeFault, ResizeCause};
pub use shown::Shown;
