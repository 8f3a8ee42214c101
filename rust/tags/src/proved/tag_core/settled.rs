// Made of crates/tag_core/src/settled.rt, where the contracts are, by rust/generate.

//! A map together with all its callers.

use crate::base::vec::Vec;
use crate::proved::tag_core::caller::Caller;
use crate::proved::tag_core::map::Map;
use crate::proved::tag_model::Totals;

/// A map and all its callers, so that nobody else acts on it. They are returned unchanged, or go on with a new map.
pub struct Settled<R> {
    pub(crate) tags: Map<R>,
    /// In the order in which they were passed in.
    pub(crate) callers: Vec<Caller<R>>,
    /// Their totals: tags won, given back, held and posted.
    pub(crate) totals: Totals,
}
