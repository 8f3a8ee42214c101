// Made of crates/tag_core/src/closed.rt, where the contracts are, by rust/generate.

//! What is left of a map once its callers are gathered.

use crate::base::vec::Vec;
use crate::proved::step_ledger::GatherCause;
use crate::proved::tag_core::caller::Caller;
use crate::proved::tag_core::map::Map;
use crate::proved::tag_layout::Layout;
use crate::proved::tag_model::Totals;

/// A map that has ended.
pub struct Closed<R> {
    /// How its tags are numbered.
    pub layout: Layout,
    /// The totals of its callers: tags won, given back, held and posted.
    pub totals: Totals,
    /// The slots of the tags, in order. The slot of a tag that is still held has some value.
    pub slots: Vec<R>,
}

/// Why a map was neither gathered nor settled, with everything that was passed in.
pub struct GatherFault<R> {
    pub cause: GatherCause,
    pub map: Map<R>,
    /// In the order in which they were passed in.
    pub callers: Vec<Caller<R>>,
}
