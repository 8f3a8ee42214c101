// Made of crates/tag_core/src/lib.rt, where the contracts are, by rust/generate.

//! A map of tags that callers share without a lock, under a rule: between any two steps, each tag is in exactly one
//! place.

mod bell;
mod berth;
mod caller;
mod claims;
mod clears;
mod closed;
mod gather;
mod kept;
mod loans;
mod looks;
mod map;
mod meets;
mod opens;
mod posts;
mod reopens;
mod settled;
mod settles;
mod shape;
mod sleeps;
mod slots;
mod spots;
mod sweeps;
mod together;
mod word_held;

pub use crate::proved::step_ledger::GatherCause;
pub use bell::Unroused;
pub use berth::{Berth, Waiter, TURNS};
pub use caller::Caller;
pub use claims::{Claim, Spent};
pub use closed::{Closed, GatherFault};
pub use kept::Kept;
pub use loans::{Lender, Loans};
pub use map::Map;
pub use opens::OpenFault;
pub use posts::MOST_NOTE;
pub use settled::Settled;
pub use shape::Shape;
pub use sleeps::Roused;
pub use together::Gathering;
