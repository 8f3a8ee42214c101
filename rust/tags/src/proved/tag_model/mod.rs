// Made of crates/tag_model/src/lib.rt, where the contracts are, by rust/generate.

//! The model of a tag allocator: one map from tags to places, and a list of events by any callers.

mod entries;
mod event;
mod masks;
mod place;
mod totals;
mod world;

pub use event::{Event, EventFault};
pub use place::Place;
pub use totals::Totals;
pub use world::{ModelFault, World, MAX_CALLERS, MOST_WON};
