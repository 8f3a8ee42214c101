// Made of crates/tag_core/src/opens.rt, where the contracts are, by rust/generate.

//! A new map, and its callers.

use crate::base::table::{Seat, Table};
use crate::base::vec::{AllocError, Global, Vec};
use crate::proved::step_ledger::{hand_out, MemberSource};
use crate::proved::tag_core::caller::{Caller, APART};
use crate::proved::tag_core::map::Map;
use crate::proved::tag_core::shape::Shape;
use crate::proved::tag_core::spots::{first_state, table_words};
use crate::proved::tag_layout::Layout;
use crate::proved::tag_model::{MAX_CALLERS, MOST_WON};

/// Why a map cannot be opened.
#[derive(Clone, Copy, Debug, PartialEq, Eq)]
pub enum OpenFault {
    /// Out of memory.
    Memory,
    /// The number of callers is not 1 to 64.
    CallerCount,
    /// The life is above 2^48 tags.
    LifeTooLong,
    /// The number of slots is not the number of tags.
    SlotCount,
}

/// An empty mask for each word, in a block of memory that shares no cache line with another caller's.
#[inline]
pub(crate) fn none_held(alloc: Global, words: usize) -> Result<Vec<u64>, AllocError> {
    let mut held = Vec::with_capacity(alloc, words + APART)?;
    held.resize(words, 0u64)?;
    Ok(held)
}

impl<R> MemberSource for Map<R> {
    type Member = Caller<R>;

    type Rest = Seat<R>;

    #[inline]
    fn next_member(&self, alloc: Global, rest: &mut Seat<R>, number: u32) -> Result<Caller<R>, AllocError> {
        let layout = self.shape.layout;
        let held = none_held(alloc, layout.words() as usize)?;
        let seat = self.table.shared.split_seat(rest);
        Ok(Caller {
            seat,
            layout,
            states: first_state(layout),
            number,
            life: self.shape.life,
            held,
            won: 0,
            back: 0,
            apart: [0; APART],
        })
    }
}

/// A map of this shape with all tags free, and the seat that has the records of all its callers. The slots come back if
/// memory runs out.
#[inline]
pub(crate) fn new_map<R>(alloc: Global, shape: Shape, slots: Vec<R>) -> Result<(Map<R>, Seat<R>), Vec<R>> {
    let Ok(room) = Vec::with_capacity(alloc, shape.layout.depth() as usize) else {
        return Err(slots);
    };
    let Ok(words) = Vec::filled(alloc, 0u64, table_words(shape.layout)) else {
        return Err(slots);
    };
    match Table::new(alloc, words.as_slice(), slots) {
        Ok((table, rest)) => Ok((Map { table, shape, room }, rest)),
        Err(refused) => Err(refused.slots),
    }
}

/// A map and its callers, after the arguments were tested: only want of memory refuses it.
#[inline]
fn lay_out<R>(alloc: Global, shape: Shape, slots: Vec<R>) -> Result<(Map<R>, Vec<Caller<R>>), AllocError> {
    let Ok((map, rest)) = new_map(alloc, shape, slots) else {
        return Err(AllocError);
    };
    let callers = hand_out(alloc, &map, rest, map.shape.callers)?;
    Ok((map, callers))
}

impl<R> Map<R> {
    /// Opens a map of free tags, each with a slot, for 1 to 64 callers, each of which may win at most `life` tags. The
    /// causes are tested in this order: `CallerCount`, not 1 to 64 callers; `LifeTooLong`, a life above 2^48;
    /// `SlotCount`, not one slot for each tag; `Memory`. The slots are dropped then.
    #[inline]
    pub fn open(
        alloc: Global,
        layout: Layout,
        callers: u32,
        life: u64,
        slots: Vec<R>,
    ) -> Result<(Map<R>, Vec<Caller<R>>), OpenFault> {
        if callers == 0 || callers > MAX_CALLERS {
            return Err(OpenFault::CallerCount);
        }
        if life > MOST_WON {
            return Err(OpenFault::LifeTooLong);
        }
        if slots.len() != layout.depth() as usize {
            return Err(OpenFault::SlotCount);
        }

        let shape = Shape { layout, callers, life };
        match lay_out(alloc, shape, slots) {
            Ok(opened) => Ok(opened),
            Err(_) => Err(OpenFault::Memory),
        }
    }
}
