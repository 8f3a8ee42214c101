// Made of crates/tag_core/src/loans.rt, where the contracts are, by rust/generate.

//! Callers that lend their records, one after another, and then go on unchanged. They may be parts of larger values.

use crate::base::table::Seat;
use crate::base::vec::Vec;
use crate::proved::tag_core::caller::{Caller, APART};
use crate::proved::tag_core::map::Map;
use crate::proved::tag_core::spots::{first_state, waiters_spot, SPARE};
use crate::proved::tag_core::together::Gathering;
use crate::proved::tag_layout::Layout;
use crate::proved::tag_model::Totals;

/// A caller that has lent its record. It makes no step until the record is returned; it keeps the slots of its tags.
pub struct Lender<R> {
    pub(crate) seat: Seat<R>,
    pub(crate) layout: Layout,
    pub(crate) number: u32,
    pub(crate) life: u64,
    pub(crate) held: Vec<u64>,
    pub(crate) won: u64,
    pub(crate) back: u64,
    pub(crate) apart: [u64; APART],
}

/// The records of all callers of a map, so that nobody else acts on it.
pub struct Loans<R> {
    pub(crate) seat: Seat<R>,
}

impl<R> Gathering<R> {
    /// Returns the totals of all callers of the map, which have lent their records: tags won, given back, held and
    /// posted.
    #[inline]
    pub fn settle(self, map: &Map<R>) -> (Loans<R>, Totals) {
        let Gathering {
            mut seat,
            won,
            back,
            held,
        } = self;
        map.table.shared.load(&mut seat, SPARE);
        let totals = Totals {
            got: won,
            back,
            held,
            posted: won - back - held,
        };
        (Loans { seat }, totals)
    }

    /// Returns who waits, while all callers of the map are together: a bit is 1 if the caller of that number does.
    #[inline]
    pub fn waiting(&mut self, map: &Map<R>) -> u64 {
        let table = &map.table.shared;
        table.load(&mut self.seat, waiters_spot())
    }
}

impl<R> Loans<R> {
    /// Returns the caller that lent its record last, unchanged.
    #[inline]
    pub fn give_back(&mut self, map: &Map<R>, lender: Lender<R>) -> Caller<R> {
        let Lender {
            mut seat,
            layout,
            number,
            life,
            held,
            won,
            back,
            apart,
        } = lender;
        let table = &map.table.shared;
        let own = table.split_seat(&mut self.seat);
        table.join_seat(&mut seat, own);
        Caller {
            seat,
            layout,
            states: first_state(layout),
            number,
            life,
            held,
            won,
            back,
            apart,
        }
    }
}
