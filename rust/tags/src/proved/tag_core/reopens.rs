// Made of crates/tag_core/src/reopens.rt, where the contracts are, by rust/generate.

//! Reopening: the callers of a map that has ended go on with a new one.

use crate::base::table::Seat;
use crate::base::vec::{AllocError, Global, Vec};
use crate::proved::step_ledger::index_of;
use crate::proved::tag_core::caller::Caller;
use crate::proved::tag_core::map::Map;
use crate::proved::tag_core::opens::{new_map, none_held};
use crate::proved::tag_core::settled::Settled;
use crate::proved::tag_core::shape::Shape;
use crate::proved::tag_core::spots::first_state;
use crate::proved::tag_layout::Layout;

/// For each caller, an empty mask for each word.
#[inline]
fn spare_masks(alloc: Global, count: usize, words: usize) -> Result<Vec<Vec<u64>>, AllocError> {
    let mut masks = Vec::new(alloc);
    for _ in 0..count {
        let mask = none_held(alloc, words)?;
        if masks.push(mask).is_err() {
            return Err(AllocError);
        }
    }
    Ok(masks)
}

/// The shape of the next map: each caller starts with the counts that it has now.
#[inline]
fn next_shape(shape: &Shape, layout: Layout) -> Shape {
    Shape {
        layout,
        callers: shape.callers,
        life: shape.life,
    }
}

/// Moves a caller to the next map, from the seat that has its record there and those of greater numbers.
#[inline]
fn reseat<R>(tags: &Map<R>, rest: &mut Seat<R>, caller: &mut Caller<R>, held: Vec<u64>) {
    caller.seat = tags.table.shared.split_seat(rest);
    caller.layout = tags.shape.layout;
    caller.states = first_state(caller.layout);
    caller.held = held;
}

/// Moves all callers to the next map, in their order.
#[inline]
fn reseat_all<R>(tags: &Map<R>, mut rest: Seat<R>, callers: &mut Vec<Caller<R>>, mut masks: Vec<Vec<u64>>) {
    for number in 0..tags.shape.callers {
        let Some(i) = index_of(callers.as_slice(), number) else {
            unreachable!()
        };
        let Some(held) = masks.pop() else { unreachable!() };
        reseat(tags, &mut rest, &mut callers[i], held);
    }
}

/// What the next map is made with: its shape, and an empty mask for each word and caller.
#[inline]
fn prepare<R>(alloc: Global, settled: &Settled<R>, layout: Layout) -> Result<(Shape, Vec<Vec<u64>>), AllocError> {
    let shape = next_shape(&settled.tags.shape, layout);
    let masks = spare_masks(alloc, shape.callers as usize, layout.words() as usize)?;
    Ok((shape, masks))
}

impl<R> Settled<R> {
    /// Opens a new map of free tags for the same callers, who keep their counts of tags won and given back. It fails
    /// only if memory runs out, and then returns everything it was given, unchanged.
    #[inline]
    pub fn reopen(
        self,
        alloc: Global,
        layout: Layout,
        slots: Vec<R>,
    ) -> Result<(Map<R>, Vec<Caller<R>>), (Settled<R>, Vec<R>)> {
        let Ok((shape, masks)) = prepare(alloc, &self, layout) else {
            return Err((self, slots));
        };
        let (map, rest) = match new_map(alloc, shape, slots) {
            Ok(made) => made,
            Err(slots) => return Err((self, slots)),
        };
        let Settled {
            tags,
            mut callers,
            totals: _,
        } = self;
        reseat_all(&map, rest, &mut callers, masks);
        drop(tags);
        Ok((map, callers))
    }
}
