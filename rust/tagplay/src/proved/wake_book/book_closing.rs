// Made of crates/wake_book/src/book_closing.rt, where the contracts are, by rust/generate.

//! Gathers all tellers and closes the book.

use crate::base::table::Closed;
use crate::base::vec::Vec;
use crate::proved::step_ledger::{all_there, gather_each, Gather, GatherCause};
use crate::proved::wake_book::book::{Book, BookTotals, Teller, TellerGathering, COMPLETIONS, WAKEUPS};

/// The reason why `gather` failed, with the book and the tellers that were passed in.
pub struct BookGatherFault {
    pub cause: GatherCause,
    pub book: Book,
    /// In the order in which they were passed in.
    pub tellers: Vec<Teller>,
}

impl Book {
    /// Closes the book and returns its totals, if all its tellers are passed in, in any order. Otherwise it names the
    /// least missing number and hands everything back. For each teller but the first, one load is in no teller's list.
    pub fn gather(book: Book, tellers: Vec<Teller>) -> Result<BookTotals, BookGatherFault> {
        if let Err(cause) = all_there(&tellers, book.limits.tellers) {
            return Err(BookGatherFault { cause, book, tellers });
        }
        let all = gather_each(&book, tellers);
        Ok(book.finish(all))
    }

    /// Starts a gathering with its first teller.
    pub fn start_gathering(&self, teller: Teller) -> TellerGathering {
        let Teller {
            seat,
            number: _,
            count: _,
            charges,
        } = teller;
        TellerGathering { seat, charges }
    }

    /// Closes the book, once all its tellers are gathered, and returns its totals.
    pub fn finish(self, gathering: TellerGathering) -> BookTotals {
        let Book {
            table,
            limits: _,
            batch: _,
        } = self;
        let TellerGathering { seat, charges } = gathering;
        let closed = table.close_with(seat);
        let counted = closed.word(COMPLETIONS);
        let charged = closed.word(WAKEUPS);
        discard(closed);
        BookTotals {
            counted,
            charged,
            charges,
        }
    }
}

impl Gather for Book {
    type Member = Teller;

    type Gathering = TellerGathering;

    fn take_first(&self, teller: Teller) -> TellerGathering {
        self.start_gathering(teller)
    }

    fn take_next(&self, gathering: &mut TellerGathering, teller: Teller) {
        gathering.add(self, teller);
    }
}

impl TellerGathering {
    /// Adds a teller of the book to the gathering. The load that this takes is in no teller's list.
    pub fn add(&mut self, book: &Book, teller: Teller) {
        let Teller {
            seat,
            number: _,
            count: _,
            charges,
        } = teller;
        book.table.shared.join_seat(&mut self.seat, seat);
        self.charges = self.charges.saturating_add(charges);
    }
}

/// Frees the memory of a closed table without slots.
pub(crate) fn discard(closed: Closed<()>) {
    closed.free();
}
