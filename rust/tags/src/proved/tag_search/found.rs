// Made of crates/tag_search/src/found.rt, where the contracts are, by rust/generate.

//! What a get of a caller answers.

/// What a get won, and how many tags it freed and left to others.
#[derive(Clone, Copy, Debug, PartialEq, Eq)]
pub struct Found<T> {
    /// What was won, if anything.
    pub answer: Option<T>,
    /// How many tags the sweeps of this get freed, less those of its latest sweep that it won. Each of them is free
    /// unless another caller took it.
    pub left: u64,
}
