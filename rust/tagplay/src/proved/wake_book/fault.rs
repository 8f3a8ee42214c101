// Made of crates/wake_book/src/fault.rt, where the contracts are, by rust/generate.

//! The faults of opening a book or groups.

/// Why a book or groups can't be opened, in the order in which the causes are checked.
#[derive(Clone, Copy, Debug, PartialEq, Eq)]
pub enum BookFault {
    /// The batch is not 1 to 8, or the number of tellers or waiters is not 1 to 64.
    Count,
    /// The cap is above 2^56.
    CapTooLarge,
    /// Out of memory. The arguments are valid.
    Memory,
}
