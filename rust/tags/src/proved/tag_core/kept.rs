// Made of crates/tag_core/src/kept.rt, where the contracts are, by rust/generate.

//! The outcome of a sweep that keeps a tag.

/// What a sweep of a word kept, and what it freed.
#[derive(Clone, Copy, Debug, PartialEq, Eq)]
pub struct Kept {
    /// The place of the tag that the caller kept, and now holds.
    pub place: u32,
    /// The other tags that it swept, which it freed, as a mask: 1 is freed.
    pub rest: u64,
}
