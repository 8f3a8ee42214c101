// Made of crates/tag_core/src/slots.rt, where the contracts are, by rust/generate.

//! Slots: the value beside a held tag.

use crate::base::table::{Seat, Shared};
use crate::proved::tag_core::caller::Caller;
use crate::proved::tag_core::map::Map;

impl<R> Map<R> {
    /// Writes the slot of a held tag, and returns the former value.
    #[inline]
    pub fn slot(&self, caller: &mut Caller<R>, tag: u32, new: R) -> R {
        let spot = caller.state_spot(tag);
        let table = &self.table.shared;
        table.load(&mut caller.seat, spot);
        let old = table.exchange(&mut caller.seat, tag as usize, new);
        table.load(&mut caller.seat, spot);
        old
    }
}

/// The value of the slot that the seat took last.
#[inline]
fn front_value<R: Copy>(table: &Shared<R>, seat: &mut Seat<R>, slot: usize) -> R {
    *seat.slot_mut(table, slot)
}

impl<R: Copy> Map<R> {
    /// Returns the value in the slot of a held tag, which keeps it.
    #[inline]
    pub fn read(&self, caller: &mut Caller<R>, tag: u32) -> R {
        let spot = caller.state_spot(tag);
        let table = &self.table.shared;
        table.load(&mut caller.seat, spot);
        let value = front_value(table, &mut caller.seat, tag as usize);
        table.load(&mut caller.seat, spot);
        value
    }
}
