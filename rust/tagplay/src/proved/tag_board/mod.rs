// Made of crates/tag_board/src/lib.rt, where the contracts are, by rust/generate.

//! The world of a script over shared tags: the answer of each command of each caller, and the state after it.

mod board;
mod clears;
mod closing;
mod exclusion;
mod gets;
mod looks;
mod opens;
mod posts;
mod resizes;
mod waits;

pub use board::Board;
