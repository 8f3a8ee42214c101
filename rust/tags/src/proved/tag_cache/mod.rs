// Made of crates/tag_cache/src/lib.rt, where the contracts are, by rust/generate.

//! A few tags of its own for each thread, so that most gets and clears take no atomic read-modify-write.

mod batch_clears;
mod before;
mod bell;
mod cache;
mod clears;
mod counts;
mod exact;
mod flush;
mod gets;
mod holds;
mod keeping;
mod kept;
mod known;
mod looks;
mod masks;
mod meets;
mod numbers;
mod quietly;
mod rounds;
mod sleeps;
mod slots;
mod telling;
mod way;
mod window;

pub use crate::proved::tag_pool::{Found, Got, Hand, Pool, TagFault};
pub use cache::Cache;
pub use keeping::Keeping;
