// Made of crates/tag_bell/src/found.rt, where the contracts are, by rust/generate.

//! What a caller in a round finds at the berths that it looks at.

use crate::proved::tag_core::{Berth, Caller, Map, Waiter};
use crate::proved::tag_model::MAX_CALLERS;

/// Room for the turns of all callers.
pub(crate) const ROOM: usize = 64;

/// Those found listed and those found told, a bit for the number of each.
#[derive(Clone, Copy)]
pub(crate) struct Masks {
    /// Those listed as sleepers.
    pub(crate) sleepers: u64,
    /// Those listed as listeners.
    pub(crate) listeners: u64,
    /// Sleepers that were told and are not up yet. Each of them comes to every tag.
    pub(crate) coming: u64,
}

impl Masks {
    /// Only those that come.
    #[inline]
    pub(crate) fn of_coming(coming: u64) -> Masks {
        Masks {
            sleepers: 0,
            listeners: 0,
            coming,
        }
    }

    /// Notes what was found at the berth of this number.
    #[inline]
    pub(crate) fn note(&mut self, number: u32, berth: Berth) {
        match berth {
            Berth::Listed(waiter, _) => match waiter {
                Waiter::Sleeper => self.sleepers |= 1 << number,
                Waiter::Listener => self.listeners |= 1 << number,
            },
            Berth::Up => {}
            Berth::Told(waiter, _) => match waiter {
                Waiter::Sleeper => self.coming |= 1 << number,
                Waiter::Listener => {}
            },
        }
    }
}

/// Those found, and the turns of those listed.
pub(crate) struct Found {
    /// Whom it found.
    pub(crate) masks: Masks,
    /// The turn of each that is listed, at the index of its number.
    pub(crate) turns: [u64; ROOM],
}

impl Found {
    /// Notes what was found at the berth of this number, which was not noted as listed before.
    #[inline]
    pub(crate) fn note(&mut self, number: u32, berth: Berth) {
        self.masks.note(number, berth);
        if let Berth::Listed(_, turn) = berth {
            self.turns[number as usize] = turn;
        }
    }
}

/// Looks once at the berth of each caller that was found waiting. Returns whom it finds listed, and who comes.
#[inline]
pub(crate) fn look_at_each<R>(map: &Map<R>, caller: &mut Caller<R>, waiting: u64) -> Masks {
    let mut masks = Masks::of_coming(0);
    for number in 0..bits_of(waiting) {
        if waiting >> number & 1 == 1 {
            let berth = map.look_at(caller, number);
            masks.note(number, berth);
        }
    }
    masks
}

/// Looks once more at the berth of each of these callers, and notes the turns of those that it finds listed.
#[inline]
pub(crate) fn look_again<R>(map: &Map<R>, caller: &mut Caller<R>, listed: u64, found: &mut Found) {
    for number in 0..bits_of(listed) {
        if listed >> number & 1 == 1 {
            let berth = map.look_at(caller, number);
            found.note(number, berth);
        }
    }
}

/// Returns the number of bits of a mask up to its highest 1: no caller from there on is in it.
#[inline]
pub(crate) fn bits_of(callers: u64) -> u32 {
    MAX_CALLERS - callers.leading_zeros()
}
