//! Calls that give tags back. Those who wait for tags of their set are then to be told how many became free (`see_to`).

use crate::allocator::way::{by_way, Way};
use crate::allocator::{Core, Due, Freed, Held, HeldMask};
use crate::options::Kind;

impl Way {
    /// Gives a tag back if that is a step, or if the hand has a place for it, and otherwise returns it for `clear`. What
    /// became free `freed` says, so that whoever tells nobody need not ask.
    #[inline(always)]
    pub fn try_clear(&mut self, core: &Core, held: Held) -> core::result::Result<(), Held> {
        match self {
            Way::Plain(plain) => core.tags.clear_held_quietly(&mut plain.hand, held.number()),
            Way::Cached(cached) if cached.cache.has_place(held.number()) => {
                cached.cache.clear_placed(&core.tags, held.number());
            }
            _ => return Err(held),
        }
        Ok(())
    }

    /// What a `try_clear` of this tag made free. One that the hand keeps did not become free.
    pub fn freed(&self, core: &Core, number: u32) -> Freed {
        match self {
            Way::Plain(_) => Freed::of(core.kind(number), 1),
            _ => Freed::NONE,
        }
    }

    /// Gives any tag back. Returns what became free.
    #[inline]
    pub fn clear(&mut self, core: &Core, held: Held) -> Freed {
        let (kind, tags) = (core.kind(held.number()), &core.tags);
        let freed = by_way!(self,
            hand => {
                tags.clear_held_quietly(hand, held.number());
                1
            },
            cache => {
                let freed = cache.clear_any(tags, held.number());
                debug_assert!(freed.is_ok(), "a guard's tag is held");
                // The call counts ordinary tags alone, of which it may give several back.
                if kind == Kind::Ordinary { freed.unwrap_or(0) } else { 1 }
            }
        );
        Freed::of(kind, freed)
    }

    /// Gives tags back together.
    #[inline]
    pub fn clear_mask(&mut self, core: &Core, held: HeldMask) -> Freed {
        let (first, mask) = (held.numbers().first(), held.numbers().mask());
        let freed = by_way!(self,
            hand => {
                core.tags.clear_mask_held_quietly(hand, first, mask);
                mask.count_ones()
            },
            cache => {
                let freed = cache.clear_mask_quietly(&core.tags, first, mask);
                debug_assert!(freed.is_ok(), "a guard's tags are held");
                freed.unwrap_or(0)
            }
        );
        Freed::of(Kind::Ordinary, freed)
    }

    /// Gives all kept tags back.
    pub fn flush(&mut self, core: &Core) -> Freed {
        let freed = by_way!(self, _hand => 0, cache => cache.flush_quietly(&core.tags));
        Freed::of(Kind::Ordinary, freed)
    }

    /// Tells those who wait for a tag of this kind of those that became free, if any did. If somebody waits for an
    /// ordinary one, what the hand keeps goes back too.
    pub fn see_to(&mut self, core: &Core, kind: Kind, freed: Freed) -> Due {
        let (tags, freed) = (&core.tags, freed.count(kind));
        if freed == 0 {
            return Due::NOBODY;
        }
        let set = kind.into();
        let told = by_way!(self, hand => tags.see_to(hand, set, freed), cache => cache.see_to(tags, set, freed));
        Due::of(kind, told)
    }
}
