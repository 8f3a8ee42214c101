//! A wait for a tag of a set, round by round. Whoever calls sleeps between two rounds as it likes, and may end the
//! wait: a limit, a stop and a cancel each only end a sleep, and a sleep that ends for no reason is one round more.

use crate::allocator::way::{by_way, Way};
use crate::allocator::{Core, Due, Held};
use crate::error::{Error, Result};
use crate::options::Kind;
use crate::proved::tag_pool;

// A hand waits as a sleeper if its thread sleeps, and as a listener if futures wait behind it.
pub(crate) use crate::proved::tag_pool::{Turn, Waiter};

/// What a hand that waits does next.
pub(crate) enum Next {
    /// It has this tag, and waits no more.
    Won(Held),
    /// It waits no more, and has no tag.
    Over,
    /// It sleeps until it is told, or its wait is to end.
    Sleep,
}

impl From<tag_pool::Next> for Next {
    fn from(next: tag_pool::Next) -> Next {
        match next {
            tag_pool::Next::Won(tag) => Next::Won(Held::new(tag)),
            tag_pool::Next::Over => Next::Over,
            tag_pool::Next::Sleep => Next::Sleep,
        }
    }
}

impl Way {
    /// The proved round, if the hand can wait: as it can after a get that found no tag.
    pub fn wait_on(
        &mut self,
        core: &Core,
        kind: Kind,
        waiter: Waiter,
        is_over: bool,
        turn: Turn,
    ) -> (Result<Next>, Due) {
        let (tags, set) = (&core.tags, kind.into());
        if !by_way!(self, hand => hand.can_wait(set), cache => cache.can_wait(set)) {
            let answer = if is_over { Ok(Next::Over) } else { Err(Error::Spent) };
            return (answer, self.give_up(core, kind));
        }
        let (next, told) = by_way!(self,
            hand => tags.wait_on(hand, set, waiter, is_over, turn),
            cache => cache.wait_on(tags, set, waiter, is_over, turn)
        );
        (Ok(next.into()), Due::of(kind, told))
    }

    /// A round that other calls of the hand may have come before: so first a get has it begin at the first tag, as a
    /// get that found none does.
    pub fn listen_on(&mut self, core: &Core, kind: Kind, is_over: bool, turn: Turn) -> (Result<Next>, Due) {
        if is_over {
            return self.wait_on(core, kind, Waiter::Listener, is_over, turn);
        }
        let (found, due) = self.get_and_tell(core, kind);
        let (next, told) = match found {
            Ok(None) => self.wait_on(core, kind, Waiter::Listener, is_over, turn),
            Ok(Some(held)) => (Ok(Next::Won(held)), self.give_up(core, kind)),
            Err(error) => (Err(error), self.give_up(core, kind)),
        };
        (next, due.and(told))
    }

    fn get_and_tell(&mut self, core: &Core, kind: Kind) -> (Result<Option<Held>>, Due) {
        let (found, left) = self.get_in(core, kind);
        (found, self.see_to(core, kind, left))
    }

    /// Ends a wait, and sees to all tags of its kind.
    fn give_up(&mut self, core: &Core, kind: Kind) -> Due {
        let (tags, set) = (&core.tags, kind.into());
        let told = by_way!(self,
            hand => {
                tags.get_up(hand, set);
                tags.see_to_all(hand, set)
            },
            cache => cache.end_wait(tags, set)
        );
        Due::of(kind, told)
    }
}
