// Made of crates/tag_search/src/lib.rt, where the contracts are, by rust/generate.

//! The search for free tags, written once over a port to the words.

mod all_places;
mod batch;
mod choosing;
mod found;
mod hint;
pub mod on_map;
mod pass;
mod place;
mod plain;
mod plain_steps;
mod port;
mod rank;
mod scan;
mod search;
mod shared;

pub use found::Found;
pub use hint::{after_clear, Hint};
pub use plain::PlainPort;
pub use port::Port;
pub use search::{get, get_batch, get_shallow, Unfinished};
pub use shared::Shared;
