// Made of crates/tag_cache/src/rounds.rt, where the contracts are, by rust/generate.

//! A wait for a tag of a set by the bell, round by round, as `Pool::wait_on` makes them. A kept tag ends a wait for an
//! ordinary one at once, and a cache whose hand may sleep for one keeps nothing; a wait for a reserved tag goes past the
//! kept tags.

use crate::proved::tag_cache::cache::Cache;
use crate::proved::tag_pool::{Kind, Next, Pool, Told, Turn, Waiter};

impl<R> Cache<R> {
    /// Returns whether the hand can wait for a tag of this kind, as `Hand::can_wait` does. This makes no step.
    #[inline]
    pub fn can_wait(&self, kind: Kind) -> bool {
        self.hand.can_wait(kind)
    }
}

impl<R: Copy> Cache<R> {
    /// One round of a wait for a tag of this kind, as this waiter. For an ordinary one it hands the least kept tag out, or
    /// has the hand list itself and try each tag; for a reserved one it always has the hand do so; or it ends the wait. If
    /// it answers `Sleep`, the hand may sleep, and can wait again, and no tag of this kind is kept. Otherwise it waits no
    /// more and has nothing to see to, and those told are to be woken (`Pool::wake_told`).
    #[inline]
    pub fn wait_on(&mut self, pool: &Pool<R>, kind: Kind, waiter: Waiter, is_over: bool, turn: Turn) -> (Next, Told) {
        match kind {
            Kind::Ordinary => self.wait_with_kept(pool, waiter, is_over, turn),
            Kind::Reserved => self.wait_past_kept(pool, waiter, is_over, turn),
        }
    }

    /// One round of a wait for an ordinary tag.
    #[inline]
    fn wait_with_kept(&mut self, pool: &Pool<R>, waiter: Waiter, is_over: bool, turn: Turn) -> (Next, Told) {
        if is_over {
            return (Next::Over, self.end_wait(pool, Kind::Ordinary));
        }
        if self.keeps_none() {
            return self.try_listed(pool, waiter, turn);
        }
        let tag = self.reuse();
        (Next::Won(tag), self.end_wait(pool, Kind::Ordinary))
    }

    /// One round of a wait for a reserved tag.
    #[inline]
    fn wait_past_kept(&mut self, pool: &Pool<R>, waiter: Waiter, is_over: bool, turn: Turn) -> (Next, Told) {
        pool.wait_on(&mut self.hand, Kind::Reserved, waiter, is_over, turn)
    }

    /// Has the hand make a round for an ordinary tag that is not the end of its wait.
    #[inline]
    fn try_listed(&mut self, pool: &Pool<R>, waiter: Waiter, turn: Turn) -> (Next, Told) {
        let (next, told) = pool.wait_on(&mut self.hand, Kind::Ordinary, waiter, false, turn);
        let Next::Won(tag) = next else {
            return (next, told);
        };
        self.learn(tag);
        (Next::Won(tag), told)
    }

    /// Ends a wait: the hand gets up, and then sees to all tags of this kind. Returns those told, who are to be woken.
    #[inline]
    pub fn end_wait(&mut self, pool: &Pool<R>, kind: Kind) -> Told {
        pool.get_up(&mut self.hand, kind);
        pool.see_to_all(&mut self.hand, kind)
    }
}
