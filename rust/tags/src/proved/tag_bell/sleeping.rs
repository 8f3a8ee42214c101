// Made of crates/tag_bell/src/sleeping.rt, where the contracts are, by rust/generate.

//! How a caller sleeps until it is told, and how those told are woken.

use crate::base::sleep::Wait;
use crate::proved::tag_bell::told::Told;
use crate::proved::tag_core::{Caller, Map, Roused, Unroused};
use crate::proved::tag_model::MAX_CALLERS;

/// Whom a call told: the sleepers, which it woke, and the listeners, which whoever gets this has to wake.
pub struct Woken {
    /// The sleepers that were roused.
    pub(crate) roused: Roused,
    /// The listeners that were told.
    pub(crate) listeners: Unroused,
}

impl Woken {
    /// Nobody.
    #[inline]
    pub fn none() -> Woken {
        Woken {
            roused: Roused::none(),
            listeners: Unroused::none(),
        }
    }

    /// Returns whether nobody was told.
    #[inline]
    pub fn is_none(&self) -> bool {
        self.sleepers() == 0 && self.listeners() == 0
    }

    /// Returns the sleepers that were told and woken, a bit for the number of each.
    #[inline]
    pub fn sleepers(&self) -> u64 {
        self.roused.callers()
    }

    /// Returns the listeners that were told, a bit for the number of each.
    #[inline]
    pub fn listeners(&self) -> u64 {
        self.listeners.callers()
    }
}

/// Sleeps until the caller finds itself told. It may sleep only if it waits as a sleeper, has tried each tag in vain since it
/// listed itself, and has nothing to see to. It looks at its berth before each time that it sleeps, and once more after the
/// last.
#[inline]
pub fn sleep<W: Wait, R>(rt: &W, map: &Map<R>, caller: &mut Caller<R>) {
    for _ in rt.forever() {
        let berth = map.look_at_own(caller);
        if !berth.is_listed() {
            return;
        }
        // Whoever tells the caller after its look has changed the word on which it sleeps, so it misses no wakeup.
        map.sleep(rt, caller, berth);
    }
    unreachable!()
}

/// Wakes the sleepers among those that a call told. It makes no step.
#[inline]
pub fn wake<R>(map: &Map<R>, told: Told) -> Woken {
    let Told { sleepers, listeners } = told;
    Woken {
        roused: rouse_each(map, sleepers),
        listeners,
    }
}

/// Rouses each of those told.
#[inline]
fn rouse_each<R>(map: &Map<R>, told: Unroused) -> Roused {
    let mut roused = Roused::none();
    if told.callers() == 0 {
        return roused;
    }
    for number in 0..MAX_CALLERS {
        map.rouse(number, &told, &mut roused);
    }
    roused
}
