// Made of crates/wake_book/src/book.rt, where the contracts are, by rust/generate.

//! The charge book: completions are counted, and each batch of them is charged once.

use crate::base::table::{Seat, Table};
use crate::proved::step_ledger::Numbered;
use crate::proved::wake_book::spacing::STRIDE;

/// Index of the word that counts completions. The spare word is at 0.
pub(crate) const COMPLETIONS: usize = STRIDE;

/// Index of the word that counts the completions charged.
pub(crate) const WAKEUPS: usize = 2 * STRIDE;

/// Length of the table, in words: three spaced words, the last of which also has 64 bytes of its own.
pub(crate) const BOOK_WORDS: usize = 3 * STRIDE;

/// The parameters of the book's table, fixed when it is opened.
#[derive(Clone, Copy)]
pub struct Limits {
    /// Number of tellers, 1 to 64.
    pub tellers: u32,
    /// Completions that one teller may count in all, at most 2^56.
    pub cap: u64,
}

/// The counts of completions and wakeups, shared by up to 64 tellers without a lock.
pub struct Book {
    pub(crate) table: Table<()>,
    pub(crate) limits: Limits,
    /// Completions per charge, 1 to 8.
    pub(crate) batch: u32,
}

impl Book {
    /// Returns the number of completions that one charge takes, 1 to 8.
    pub fn batch(&self) -> u32 {
        self.batch
    }

    /// Returns the number of tellers, 1 to 64.
    pub fn tellers(&self) -> u32 {
        self.limits.tellers
    }
}

/// A handle that counts completions.
pub struct Teller {
    pub(crate) seat: Seat<()>,
    /// Its number, from 0.
    pub(crate) number: u32,
    /// Completions that it counted, at most the cap.
    pub(crate) count: u64,
    /// Charges that it won, at most `count`.
    pub(crate) charges: u64,
}

impl Numbered for Teller {
    fn number(&self) -> u32 {
        self.number
    }
}

/// The tellers gathered so far.
pub struct TellerGathering {
    /// The seat that holds the records of these tellers.
    pub(crate) seat: Seat<()>,
    /// Charges that these tellers won, as a saturating sum. 64 tellers of at most 2^56 charges each never saturate it.
    pub(crate) charges: u64,
}

/// The totals of a book, known once all its tellers are gathered.
#[derive(Clone, Copy, Debug, PartialEq, Eq)]
pub struct BookTotals {
    /// Completions counted.
    pub counted: u64,
    /// Completions charged, at most those counted.
    pub charged: u64,
    /// Charges won, each of one batch of completions.
    pub charges: u64,
}
