// Made of crates/tag_layout/src/lib.rt, where the contracts are, by rust/generate.

//! How the numbers of tags are laid out in words of bits.

mod batch;
mod bits;
mod layout;
mod shallow;

pub use bits::first_clear;
pub use layout::{Layout, LayoutFault, MAX_DEPTH, MAX_SHIFT};
