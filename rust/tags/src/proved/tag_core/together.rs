// Made of crates/tag_core/src/together.rt, where the contracts are, by rust/generate.

//! Gathering callers, one after another: their records come into the view of one seat.

use crate::base::table::Seat;
use crate::proved::tag_core::caller::Caller;
use crate::proved::tag_core::loans::Lender;
use crate::proved::tag_core::map::Map;
use crate::proved::tag_core::spots::SPARE;
use core::mem::swap;

/// Callers that have been gathered, one after another.
pub struct Gathering<R> {
    /// It has all their records, and no slots.
    pub(crate) seat: Seat<R>,
    /// Number of tags that they won.
    pub(crate) won: u64,
    /// Number of tags that they put or gave back.
    pub(crate) back: u64,
    /// Number of tags that they hold.
    pub(crate) held: u64,
}

/// Number of bits that are 1 in these masks.
#[inline]
pub(crate) fn count_tags(masks: &[u64]) -> u64 {
    let mut size = 0u64;
    for mask in masks {
        size += mask.count_ones() as u64;
    }
    size
}

impl<R> Map<R> {
    /// Starts to gather the map's callers with this one. The slots of its tags stay in the table, each with some value.
    #[inline]
    pub fn start_gathering(&self, caller: Caller<R>) -> Gathering<R> {
        let (first, _) = self.start_lending(caller);
        first
    }

    /// Starts to bring the map's callers together for a while, with this one: it lends its record, and keeps the slots
    /// of its tags.
    #[inline]
    pub fn start_lending(&self, caller: Caller<R>) -> (Gathering<R>, Lender<R>) {
        let Caller {
            mut seat,
            layout,
            states: _,
            number,
            life,
            held: masks,
            won,
            back,
            apart,
        } = caller;
        let note = self.table.shared.split_seat(&mut seat);
        let held = count_tags(masks.as_slice());
        let first = Gathering {
            seat: note,
            won,
            back,
            held,
        };
        let lender = Lender {
            seat,
            layout,
            number,
            life,
            held: masks,
            won,
            back,
            apart,
        };
        (first, lender)
    }
}

impl<R> Gathering<R> {
    /// Adds another caller of the map to those gathered.
    #[inline]
    pub fn add(&mut self, map: &Map<R>, caller: Caller<R>) {
        self.lend(map, caller);
    }

    /// Has another caller of the map lend its record to those gathered.
    #[inline]
    pub fn lend(&mut self, map: &Map<R>, caller: Caller<R>) -> Lender<R> {
        let (first, lender) = map.start_lending(caller);
        let Gathering {
            mut seat,
            won,
            back,
            held,
        } = first;
        swap(&mut self.seat, &mut seat);
        map.table.shared.join_seat(&mut self.seat, seat);
        map.table.shared.load(&mut self.seat, SPARE);
        self.won += won;
        self.back += back;
        self.held += held;
        lender
    }
}
