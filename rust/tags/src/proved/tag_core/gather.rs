// Made of crates/tag_core/src/gather.rt, where the contracts are, by rust/generate.

//! Gathering: all callers are passed in, and the map ends.

use crate::base::table::Closed as Ended;
use crate::base::vec::Vec;
use crate::proved::step_ledger::{all_there, gather_each, Gather};
use crate::proved::tag_core::caller::Caller;
use crate::proved::tag_core::closed::{Closed, GatherFault};
use crate::proved::tag_core::map::Map;
use crate::proved::tag_core::spots::state_spot;
use crate::proved::tag_core::together::Gathering;
use crate::proved::tag_layout::Layout;
use crate::proved::tag_model::Totals;

#[inline]
fn count_posted<R>(ended: &Ended<R>, layout: Layout) -> u64 {
    let mut posted = 0u64;
    for tag in 0..layout.depth() {
        if ended.word(state_spot(layout, tag)) != 0 {
            posted += 1;
        }
    }
    posted
}

/// The slots, in the order of their tags, in memory that was set aside for them when the map was opened.
#[inline]
fn take_out<R>(mut ended: Ended<R>, mut room: Vec<R>) -> Vec<R> {
    let mut i = 0;
    while i < ended.slot_count() {
        room.push_reserved(ended.take(i));
        i += 1;
    }
    ended.free();
    room
}

/// Ends the map, with all records on one seat.
#[inline]
fn end<R>(map: Map<R>, all: Gathering<R>) -> Closed<R> {
    let Map { table, shape, room } = map;
    let Gathering { seat, won, back, held } = all;
    let ended = table.close_with(seat);
    let posted = count_posted(&ended, shape.layout);
    let slots = take_out(ended, room);
    Closed {
        layout: shape.layout,
        totals: Totals {
            got: won,
            back,
            held,
            posted,
        },
        slots,
    }
}

impl<R> Map<R> {
    /// Ends the map once all its callers are gathered, and returns their totals. No step.
    #[inline]
    pub fn finish(self, gathering: Gathering<R>) -> Closed<R> {
        end(self, gathering)
    }
}

impl<R> Map<R> {
    /// Ends the map if all its callers are present, in any order, and returns their totals.
    #[inline]
    pub fn gather(self, callers: Vec<Caller<R>>) -> Result<Closed<R>, GatherFault<R>> {
        if let Err(cause) = all_there(&callers, self.shape.callers) {
            return Err(GatherFault {
                cause,
                map: self,
                callers,
            });
        }
        let all = gather_each(&self, callers);
        Ok(self.finish(all))
    }
}

impl<R> Gather for Map<R> {
    type Member = Caller<R>;

    type Gathering = Gathering<R>;

    #[inline]
    fn take_first(&self, caller: Caller<R>) -> Gathering<R> {
        self.start_gathering(caller)
    }

    #[inline]
    fn take_next(&self, gathering: &mut Gathering<R>, caller: Caller<R>) {
        gathering.add(self, caller);
    }
}
