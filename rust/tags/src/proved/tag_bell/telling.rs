// Made of crates/tag_bell/src/telling.rt, where the contracts are, by rust/generate.

//! How a caller that made tags free sees to them: it tells others that wait.

use crate::proved::tag_bell::found::{bits_of, look_again, look_at_each, Found, Masks, ROOM};
use crate::proved::tag_bell::told::Told;
use crate::proved::tag_core::{Caller, Map, Unroused, Waiter};

/// Sees to all that the caller has to see to, after it made `freed` tags free: where somebody waits, it tells up to
/// `freed` callers of each kind, and one at least, in the order of their turns; but no more sleepers than make, with
/// those that were told and are not up yet, as many as the map has tags. Returns those told. Where nobody waits it makes
/// one load.
#[inline]
pub fn see_to<R>(map: &Map<R>, caller: &mut Caller<R>, freed: u32) -> Told {
    let waiting = map.look_all(caller);
    if waiting == 0 {
        return Told::none();
    }
    tell_each(map, caller, freed, waiting)
}

/// Returns whether it finds that somebody waits, by one look at all who do. If it finds nobody, the caller has nothing to
/// see to.
#[inline]
pub fn finds_waiters<R>(map: &Map<R>, caller: &mut Caller<R>) -> bool {
    map.look_all(caller) != 0
}

/// Looks once at each berth of those that were found waiting, and tells callers of each kind, if any is to be told.
#[inline]
fn tell_each<R>(map: &Map<R>, caller: &mut Caller<R>, freed: u32, waiting: u64) -> Told {
    let masks = look_at_each(map, caller, waiting);
    if has_nobody_to_tell(map, &masks) {
        return Told::none();
    }
    tell_listed(map, caller, freed, &masks)
}

/// Returns whether nobody is to be told: no listener was found listed, and either no sleeper was, or as many come as
/// there are tags.
#[inline]
fn has_nobody_to_tell<R>(map: &Map<R>, masks: &Masks) -> bool {
    masks.listeners == 0 && (masks.sleepers == 0 || room_beside(map, masks.coming) == 0)
}

/// Looks once more at each berth of those that were found listed, and tells callers of each kind. Only these looks note
/// turns: mostly the first ones find nobody to be told.
#[inline]
fn tell_listed<R>(map: &Map<R>, caller: &mut Caller<R>, freed: u32, masks: &Masks) -> Told {
    let mut found = Found {
        masks: Masks::of_coming(masks.coming),
        turns: [0; ROOM],
    };
    look_again(map, caller, masks.sleepers | masks.listeners, &mut found);
    let most = freed.max(1);
    let sleepers = tell_sleepers(map, caller, most, &found);
    let listeners = tell_in_turn(map, caller, Waiter::Listener, most, found.masks.listeners, &found.turns);
    Told { sleepers, listeners }
}

/// Tells up to `most` of the sleepers that were found listed, unless those that come, together with them, would be more
/// than there are tags. A listener that was told may never learn of it, so for those nobody is left out.
#[inline]
fn tell_sleepers<R>(map: &Map<R>, caller: &mut Caller<R>, most: u32, found: &Found) -> Unroused {
    let room = most.min(room_beside(map, found.masks.coming));
    if room == 0 {
        return Unroused::none();
    }
    tell_in_turn(map, caller, Waiter::Sleeper, room, found.masks.sleepers, &found.turns)
}

/// Returns how many sleepers can be told beside those that come: with these, as many as there are tags.
#[inline]
fn room_beside<R>(map: &Map<R>, coming: u64) -> u32 {
    let tags = map.layout().depth();
    tags.saturating_sub(coming.count_ones())
}

/// Tells up to `most` of those that were found listed as this waiter, in the order of their turns. One that listed itself
/// anew meanwhile is passed over, and the next is told in its place.
#[inline]
fn tell_in_turn<R>(
    map: &Map<R>,
    caller: &mut Caller<R>,
    waiter: Waiter,
    most: u32,
    listed: u64,
    turns: &[u64; ROOM],
) -> Unroused {
    let mut left = listed;
    let mut told = Unroused::none();
    let mut room = most;
    while left != 0 && room != 0 {
        let whom = earliest(left, turns);
        left &= !(1 << whom);
        let one = map.tell(caller, whom, waiter, turns[whom as usize]);
        if one.callers() != 0 {
            room -= 1;
        }
        told.join(one);
    }
    told
}

/// Returns the one of these callers that has the lowest turn.
#[inline]
fn earliest(callers: u64, turns: &[u64; ROOM]) -> u32 {
    let mut first = callers.trailing_zeros();
    for number in 0..bits_of(callers) {
        if callers >> number & 1 == 1 && turns[number as usize] < turns[first as usize] {
            first = number;
        }
    }
    first
}
