// Made of crates/tag_model/src/totals.rt, where the contracts are, by rust/generate.

//! The sums that balance.

/// Sums over all callers and all tags of a world.
#[derive(Clone, Copy, Debug, PartialEq, Eq)]
pub struct Totals {
    /// Tags won since the world was opened.
    pub got: u64,
    /// Tags put or given back since then.
    pub back: u64,
    /// Tags that callers hold now.
    pub held: u64,
    /// Tags that are posted now.
    pub posted: u64,
}
