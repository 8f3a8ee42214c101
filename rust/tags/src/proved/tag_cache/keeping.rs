// Made of crates/tag_cache/src/keeping.rt, where the contracts are, by rust/generate.

//! When a cache keeps tags.

/// When a cache keeps the tags that its user clears.
#[derive(Clone, Copy, Debug, PartialEq, Eq)]
pub enum Keeping {
    /// Whenever there is room and nobody is found waiting. A thread that holds no tag may still keep some, so it flushes
    /// before it is idle. This is the default: a thread that gets and clears one tag at a time gains from no other.
    Always,
    /// Only while the user holds another tag in the window of the cache: the last clear gives all kept tags back. So a
    /// thread that keeps tags always has a clear to come, at which it finds who waits.
    WhileHolding,
}
