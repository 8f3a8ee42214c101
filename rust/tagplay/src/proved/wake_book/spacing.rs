// Made of crates/wake_book/src/spacing.rt, where the contracts are, by rust/generate.

//! The spacing of the words in the tables of the book and of the groups.

/// From one word in use to the next, in words of 8 bytes: 64 bytes, a cache line.
pub(crate) const STRIDE: usize = 8;
