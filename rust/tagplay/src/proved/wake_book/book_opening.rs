// Made of crates/wake_book/src/book_opening.rt, where the contracts are, by rust/generate.

//! Opens a book with its tellers.

use crate::base::table::{Seat, Table};
use crate::base::vec::{AllocError, Global, Vec};
use crate::proved::step_ledger::{hand_out, MemberSource};
use crate::proved::wake_book::book::{Book, Limits, Teller, BOOK_WORDS};
use crate::proved::wake_book::fault::BookFault;

/// The largest wakeup batch, in completions.
const MAX_WAKE_BATCH: u32 = 8;

/// The most tellers that a book can have.
const MAX_TELLERS: u32 = 64;

/// The highest cap: the most completions that one teller may count, 2^56.
pub const MAX_CAP: u64 = 1 << 56;

impl Book {
    /// Opens a book with `tellers` tellers, 1 to 64, in the order of their numbers. Each of them may count up to `cap`
    /// completions, at most 2^56, and a charge takes `batch` of them, 1 to 8. `Count` means that the batch or the
    /// number of tellers is out of range, `CapTooLarge` a cap above 2^56; `Memory` comes last.
    pub fn open(alloc: Global, batch: u32, tellers: u32, cap: u64) -> Result<(Book, Vec<Teller>), BookFault> {
        if batch == 0 || batch > MAX_WAKE_BATCH || tellers == 0 || tellers > MAX_TELLERS {
            return Err(BookFault::Count);
        }
        if cap > MAX_CAP {
            return Err(BookFault::CapTooLarge);
        }
        let Ok(opened) = Book::lay_out(alloc, Limits { tellers, cap }, batch) else {
            return Err(BookFault::Memory);
        };
        Ok(opened)
    }

    fn lay_out(alloc: Global, limits: Limits, batch: u32) -> Result<(Book, Vec<Teller>), AllocError> {
        let words = [0u64; BOOK_WORDS];
        let (table, rest) = Table::of_words(alloc, &words)?;
        let book = Book { table, limits, batch };
        let tellers = hand_out(alloc, &book, rest, limits.tellers)?;
        Ok((book, tellers))
    }
}

impl MemberSource for Book {
    type Member = Teller;

    type Rest = Seat<()>;

    fn next_member(&self, _alloc: Global, rest: &mut Seat<()>, number: u32) -> Result<Teller, AllocError> {
        let seat = self.table.shared.split_seat(rest);
        Ok(Teller {
            seat,
            number,
            count: 0,
            charges: 0,
        })
    }
}
