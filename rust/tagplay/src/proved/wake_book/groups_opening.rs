// Made of crates/wake_book/src/groups_opening.rt, where the contracts are, by rust/generate.

//! Opens wait groups with their waiters.

use crate::base::events::{CachePadded, EventCount};
use crate::base::table::{Seat, Table};
use crate::base::vec::{AllocError, Global, Vec};
use crate::proved::step_ledger::{hand_out, MemberSource};
use crate::proved::wake_book::fault::BookFault;
use crate::proved::wake_book::groups::{Groups, Waiter, GROUP_WORDS};

/// The most waiters that groups can have.
const MAX_WAITERS: u32 = 64;

impl Groups {
    /// Opens eight empty groups with `waiters` waiters, 1 to 64, in the order of their numbers. `Count` means that
    /// their number is out of range; `Memory` comes last.
    pub fn open(alloc: Global, waiters: u32) -> Result<(Groups, Vec<Waiter>), BookFault> {
        if waiters == 0 || waiters > MAX_WAITERS {
            return Err(BookFault::Count);
        }
        let Ok(opened) = Groups::lay_out(alloc, waiters) else {
            return Err(BookFault::Memory);
        };
        Ok(opened)
    }

    fn lay_out(alloc: Global, waiters: u32) -> Result<(Groups, Vec<Waiter>), AllocError> {
        let words = [0u64; GROUP_WORDS];
        let (table, rest) = Table::of_words(alloc, &words)?;
        let groups = Groups {
            table,
            waiters,
            bells: [
                new_bell(),
                new_bell(),
                new_bell(),
                new_bell(),
                new_bell(),
                new_bell(),
                new_bell(),
                new_bell(),
            ],
        };
        let all = hand_out(alloc, &groups, rest, waiters)?;
        Ok((groups, all))
    }
}

impl MemberSource for Groups {
    type Member = Waiter;

    type Rest = Seat<()>;

    fn next_member(&self, _alloc: Global, rest: &mut Seat<()>, number: u32) -> Result<Waiter, AllocError> {
        let seat = self.table.shared.split_seat(rest);
        Ok(Waiter {
            seat,
            number,
            standing: None,
            next: 0,
            moved: 0,
        })
    }
}

fn new_bell() -> CachePadded<EventCount> {
    CachePadded::new(EventCount::new())
}
