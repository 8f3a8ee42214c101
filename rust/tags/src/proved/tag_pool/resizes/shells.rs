// Made of crates/tag_pool/src/resizes/shells.rt, where the contracts are, by rust/generate.

//! Takes hands apart into ordinary callers, which can move to the next map, and shells, and puts them together again.

use crate::base::vec::{AllocError, Global, Vec};
use crate::proved::tag_core::Caller;
use crate::proved::tag_pool::hand::Hand;
use crate::proved::tag_pool::side::Side;
use crate::proved::tag_search::Hint;

/// A hand without its ordinary caller.
pub(crate) struct Shell<R> {
    pub(crate) reserved_count: u32,
    pub(crate) reserved: Side<R>,
    /// Where its next get of an ordinary tag starts.
    pub(crate) hint: Hint,
    pub(crate) number: u32,
}

/// Room for the parts of all hands and for the hands put together again, and the slots of the next map: the allocations
/// that are made before the hands are taken apart.
pub(crate) struct Buffers<R> {
    pub(crate) callers: Vec<Caller<R>>,
    pub(crate) shells: Vec<Shell<R>>,
    pub(crate) hands: Vec<Hand<R>>,
    pub(crate) slots: Vec<R>,
}

impl<R: Copy> Buffers<R> {
    /// Reserves room for `count` hands, and makes `depth` slots that contain `fill`.
    #[inline]
    pub(crate) fn open(alloc: Global, count: usize, depth: u32, fill: R) -> Result<Buffers<R>, AllocError> {
        let callers = Vec::with_capacity(alloc, count)?;
        let shells = Vec::with_capacity(alloc, count)?;
        let hands = Vec::with_capacity(alloc, count)?;
        let slots = Vec::filled(alloc, fill, depth as usize)?;
        Ok(Buffers {
            callers,
            shells,
            hands,
            slots,
        })
    }
}

/// Takes the hands apart into their ordinary callers and their shells, both in the hands' order.
#[inline]
pub(crate) fn part<R>(
    hands: Vec<Hand<R>>,
    mut callers: Vec<Caller<R>>,
    mut shells: Vec<Shell<R>>,
) -> (Vec<Caller<R>>, Vec<Shell<R>>) {
    let mut hands = hands.into_iter();
    while let Some(hand) = hands.next() {
        let Hand {
            reserved_count,
            reserved,
            ordinary,
        } = hand;
        let Side { hint, number, caller } = ordinary;
        callers.push_reserved(caller);
        shells.push_reserved(Shell {
            reserved_count,
            reserved,
            hint,
            number,
        });
    }
    (callers, shells)
}

/// Puts the hands together from these callers and shells, in the same order.
#[inline]
pub(crate) fn unite<R>(callers: Vec<Caller<R>>, shells: Vec<Shell<R>>, mut hands: Vec<Hand<R>>) -> Vec<Hand<R>> {
    let mut callers = callers.into_iter();
    let mut shells = shells.into_iter();
    while let Some(caller) = callers.next() {
        let Some(shell) = shells.next() else { unreachable!() };
        hands.push_reserved(hand_of(caller, shell));
    }
    hands
}

#[inline]
fn hand_of<R>(caller: Caller<R>, shell: Shell<R>) -> Hand<R> {
    let Shell {
        reserved_count,
        reserved,
        hint,
        number,
    } = shell;
    Hand {
        reserved_count,
        reserved,
        ordinary: Side { hint, number, caller },
    }
}
