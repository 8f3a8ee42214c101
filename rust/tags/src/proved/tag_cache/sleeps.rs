// Made of crates/tag_cache/src/sleeps.rt, where the contracts are, by rust/generate.

//! Sleeps by the bell for a tag of a set, and who wakes the sleepers: a hand sleeps until it is told, and whoever tells
//! hands wakes the sleepers among them. A cache whose hand sleeps for an ordinary tag keeps nothing.

use crate::base::sleep::Wait;
use crate::proved::tag_cache::cache::Cache;
use crate::proved::tag_pool::{Got, Kind, Pool, TagFault, Woken};

impl<R: Copy> Cache<R> {
    /// Returns a kept tag, or takes a free ordinary tag and waits as long as it finds none, as `Pool::get_blocking` does.
    /// With the tag it returns whom it woke: nobody if the tag was kept. If no tag is kept, `NoSuchTag` means that there
    /// are no ordinary tags, `Spent` that the hand's life is used up.
    #[inline]
    pub fn get_blocking<W: Wait>(&mut self, rt: &W, pool: &Pool<R>) -> Result<Got<u32>, TagFault> {
        if self.keeps_none() {
            return self.wait_for(rt, pool);
        }
        Ok(Got {
            answer: self.reuse(),
            woken: Woken::none(),
        })
    }

    /// Has the hand get a tag, and sleep as long as it finds none.
    #[inline]
    fn wait_for<W: Wait>(&mut self, rt: &W, pool: &Pool<R>) -> Result<Got<u32>, TagFault> {
        let got = pool.get_blocking(rt, &mut self.hand)?;
        self.learn(got.answer);
        Ok(got)
    }

    /// Takes a free reserved tag, and waits as long as it finds none, as `Pool::get_reserved_blocking` does. What is kept
    /// stays kept meanwhile, where nobody else finds it: `flush` first. `NoReserved` means that there are no reserved tags,
    /// `Spent` that the hand's life in the reserved set is used up.
    #[inline]
    pub fn get_reserved_blocking<W: Wait>(&mut self, rt: &W, pool: &Pool<R>) -> Result<Got<u32>, TagFault> {
        pool.get_reserved_blocking(rt, &mut self.hand)
    }

    /// Sleeps until the hand finds itself told, as `Pool::sleep` does. It may sleep only if it waits as a sleeper, has
    /// tried each tag of this kind in vain since, and has nothing to see to, as after a get that found none, and for an
    /// ordinary tag only if nothing is kept.
    #[inline]
    pub fn sleep<W: Wait>(&mut self, rt: &W, pool: &Pool<R>, kind: Kind) {
        pool.sleep(rt, &mut self.hand, kind);
    }

    /// Sees to all that the hand has to see to, as `see_to` does, after other calls gave `freed` tags of this kind back,
    /// and wakes the sleepers whom this told.
    #[inline]
    pub fn wake(&mut self, pool: &Pool<R>, kind: Kind, freed: u32) -> Woken {
        let told = self.see_to(pool, kind, freed);
        pool.wake_told(kind, told)
    }

    /// Wakes as `wake` does, if any tag of this kind was given back.
    #[inline]
    pub(crate) fn wake_for(&mut self, pool: &Pool<R>, kind: Kind, freed: u32) -> Woken {
        if freed == 0 {
            return Woken::none();
        }
        self.wake(pool, kind, freed)
    }

    /// Sees to all tags of this kind, as `see_to_all` does, after the hand was told and got up, and won another tag or gave
    /// up, and wakes the sleepers whom this told.
    #[inline]
    pub fn wake_next(&mut self, pool: &Pool<R>, kind: Kind) -> Woken {
        pool.wake_next(&mut self.hand, kind)
    }
}
