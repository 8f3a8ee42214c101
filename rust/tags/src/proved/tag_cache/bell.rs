// Made of crates/tag_cache/src/bell.rt, where the contracts are, by rust/generate.

//! Waits for a tag of a set by the bell: a hand lists itself, learns that it was told, and gets up; and whoever makes tags
//! free, or keeps ordinary ones, sees to them.

use crate::proved::tag_cache::cache::Cache;
use crate::proved::tag_pool::{Kind, Pool, Told, Turn, Waiter};

impl<R: Copy> Cache<R> {
    /// Lists the hand among those that wait, as `Pool::list_self` does. A get that finds no tag keeps none either.
    #[inline]
    pub fn list_self(&mut self, pool: &Pool<R>, kind: Kind, waiter: Waiter, turn: Turn) {
        pool.list_self(&mut self.hand, kind, waiter, turn);
    }

    /// Ends the hand's wait, and returns whether somebody had told it, as `Pool::get_up` does.
    #[inline]
    pub fn get_up(&mut self, pool: &Pool<R>, kind: Kind) -> bool {
        pool.get_up(&mut self.hand, kind)
    }

    /// Looks whether the hand was told, as `Pool::is_told` does.
    #[inline]
    pub fn is_told(&mut self, pool: &Pool<R>, kind: Kind) -> bool {
        pool.is_told(&mut self.hand, kind)
    }

    /// Returns whether it finds a hand that waits for a tag of this kind, as `Pool::finds_waiters` does.
    #[inline]
    pub fn finds_waiters(&mut self, pool: &Pool<R>, kind: Kind) -> bool {
        pool.finds_waiters(&mut self.hand, kind)
    }

    /// Sees to all that the hand has to see to, after its user gave `freed` tags of this kind back, which became free or are
    /// kept. Where somebody waits for an ordinary tag, it gives all kept tags back, and tells others as `Pool::see_to` does,
    /// of as many tags as became free; for a reserved tag it tells them at once, and keeps what it keeps. Returns those
    /// told, who are to be woken (`Pool::wake_told`). Where nobody waits it makes one load.
    #[inline]
    pub fn see_to(&mut self, pool: &Pool<R>, kind: Kind, freed: u32) -> Told {
        match kind {
            Kind::Ordinary => self.see_with_kept(pool, freed),
            Kind::Reserved => pool.see_to(&mut self.hand, Kind::Reserved, freed),
        }
    }

    /// Sees to ordinary tags, the kept ones among them.
    #[inline]
    fn see_with_kept(&mut self, pool: &Pool<R>, freed: u32) -> Told {
        if !pool.finds_waiters(&mut self.hand, Kind::Ordinary) {
            return Told::none();
        }
        self.give_back_and_tell(pool, freed)
    }

    /// Gives all kept tags back, and tells as many as became free by that, or by what was given back before.
    #[inline]
    fn give_back_and_tell(&mut self, pool: &Pool<R>, freed: u32) -> Told {
        let kept = self.flush_quietly(pool);
        pool.see_to(&mut self.hand, Kind::Ordinary, freed.max(kept))
    }

    /// Sees to all that the hand has to see to, after it was told and got up, and won another tag or gave up, as
    /// `Pool::see_to_all` does. Returns those told, who are to be woken.
    #[inline]
    pub fn see_to_all(&mut self, pool: &Pool<R>, kind: Kind) -> Told {
        pool.see_to_all(&mut self.hand, kind)
    }
}
