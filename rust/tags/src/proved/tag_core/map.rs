// Made of crates/tag_core/src/map.rt, where the contracts are, by rust/generate.

//! A map of tags, and the rule of its table.

use crate::base::table::Table;
use crate::base::vec::Vec;
use crate::proved::tag_core::shape::Shape;

/// Tags that its callers share without a lock. Each step call is one atomic step, or two where it says so.
pub struct Map<R> {
    /// The words, the cleared sets and the states, each 64 bytes from the next, and the slots of the tags.
    pub(crate) table: Table<R>,
    /// What it was opened with.
    pub(crate) shape: Shape,
    /// Room for the slots when the map ends.
    pub(crate) room: Vec<R>,
}
