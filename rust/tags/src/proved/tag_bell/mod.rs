// Made of crates/tag_bell/src/lib.rt, where the contracts are, by rust/generate.

//! Who waits for a tag, and who has to see to one: what the steps of callers say of it, and the law that nobody sleeps
//! beside a free tag unless somebody is on the way to it.

mod found;
mod settling;
mod sleeping;
mod telling;
mod told;
mod waiting;

pub use settling::settle;
pub use sleeping::{sleep, wake, Woken};
pub use telling::{finds_waiters, see_to};
pub use told::Told;
pub use waiting::{get_up, is_told, list_self, Turn};
