// Made of crates/tag_pool/src/resizes/next_map.rt, where the contracts are, by rust/generate.

//! Moves callers to the next map.

use crate::base::vec::{Global, Vec};
use crate::proved::tag_core::{Caller, Map};
use crate::proved::tag_layout::Layout;

/// Moves all callers to a new map of this layout, or returns them to their own map if memory runs out.
#[inline]
pub(crate) fn next_map<R: Copy>(
    alloc: Global,
    tags: Map<R>,
    callers: Vec<Caller<R>>,
    layout: Layout,
    slots: Vec<R>,
) -> Result<(Map<R>, Vec<Caller<R>>), (Map<R>, Vec<Caller<R>>)> {
    let Ok(settled) = tags.settle(callers) else {
        unreachable!()
    };
    match settled.reopen(alloc, layout, slots) {
        Ok(reopened) => Ok(reopened),
        Err((settled, _)) => Err(settled.back()),
    }
}
