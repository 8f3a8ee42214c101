// Made of crates/step_ledger/src/lib.rt, where the contracts are, by rust/generate.

mod gather;
mod numbered;
mod source;

pub use gather::{gather_each, Gather};
pub use numbered::{all_there, index_of, least_missing, GatherCause, Numbered};
pub use source::{hand_out, MemberSource};
