// Made of crates/wake_book/src/lib.rt, where the contracts are, by rust/generate.

//! Charges completions in batches and wakes waiters in eight groups, over tables of atomic words.

mod book;
mod book_closing;
mod book_opening;
mod charge;
mod fault;
mod grants;
mod groups;
mod groups_closing;
mod groups_opening;
mod rings;
mod sighting;
mod sleeping;
mod spacing;
mod waiting;
mod waking;
mod walk;

pub use crate::proved::step_ledger::{GatherCause, Numbered};
pub use book::{Book, BookTotals, Teller, TellerGathering};
pub use book_closing::BookGatherFault;
pub use book_opening::MAX_CAP;
pub use charge::Charge;
pub use fault::BookFault;
pub use grants::{Grants, NO_GRANTS};
pub use groups::{GroupTotals, Groups, Waiter, WaiterGathering};
pub use groups_closing::GroupsGatherFault;
pub use sighting::Sighting;
pub use sleeping::{Announcement, Key};
pub use waiting::Left;
pub use waking::{Count, Report, Ring, Waking};
