// Made of crates/tag_bell/src/waiting.rt, where the contracts are, by rust/generate.

//! How a caller begins to wait, and how it gets up.

use crate::proved::tag_core::{Berth, Caller, Map, Waiter};

/// With which turn a caller is listed. Of those listed, whoever has the lowest is told first.
#[derive(Clone, Copy, Debug, PartialEq, Eq)]
pub enum Turn {
    /// The next one.
    Next,
    /// The one that it had: for a caller that was told and found no tag.
    Same,
}

/// Lists the caller among those that wait, as this waiter: among all of them, and then in its berth. Afterwards it has to
/// try each tag before it may sleep. A caller that does not wait yet takes the next turn in each case.
#[inline]
pub fn list_self<R>(map: &Map<R>, caller: &mut Caller<R>, waiter: Waiter, turn: Turn) {
    if let Some(turn) = own_turn(map, caller, turn) {
        map.enlist(caller, waiter, turn);
        return;
    }
    let turn = map.take_turn(caller);
    map.enter(caller);
    map.enlist(caller, waiter, turn);
}

/// Returns the turn with which the caller waits, if it is to keep it and does wait.
#[inline]
fn own_turn<R>(map: &Map<R>, caller: &mut Caller<R>, turn: Turn) -> Option<u64> {
    if turn == Turn::Next {
        return None;
    }
    match map.look_at_own(caller) {
        Berth::Up => None,
        Berth::Listed(_, turn) => Some(turn),
        Berth::Told(_, turn) => Some(turn),
    }
}

/// Ends the caller's wait, and returns whether somebody had told it. One that was told has to see to each tag: it settles
/// (`settle`) unless it finds none.
#[inline]
pub fn get_up<R>(map: &Map<R>, caller: &mut Caller<R>) -> bool {
    let berth = map.get_up(caller);
    map.leave(caller);
    berth.is_told()
}

/// Looks whether the caller was told: returns whether it does not find itself listed, so also if it does not wait. One
/// step.
#[inline]
pub fn is_told<R>(map: &Map<R>, caller: &mut Caller<R>) -> bool {
    let berth = map.look_at_own(caller);
    !berth.is_listed()
}
