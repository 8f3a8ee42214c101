//! What a hand does with a tag that it holds, and how tags pass from hand to hand.

use crate::allocator::way::{by_way, Way};
use crate::allocator::{Core, Freed, Held, HeldMask, Member};
use crate::batch::Numbers;
use crate::error::{Error, Result};
use crate::options::Kind;
use crate::proved::tag_pool::TagFault;

/// A guard's tag is held, so a call of it is not refused.
fn expect<A>(answer: core::result::Result<A, TagFault>) -> A {
    answer.unwrap_or_else(|fault| unreachable!("a guard's tag: {fault}"))
}

impl Way {
    /// For a tag that has a guard.
    #[inline]
    pub fn read(&mut self, core: &Core, number: u32) -> u64 {
        let tags = &core.tags;
        by_way!(self, hand => tags.read_held(hand, number), cache => expect(cache.read(tags, number)))
    }

    /// For a tag that has a guard.
    #[inline]
    pub fn write(&mut self, core: &Core, number: u32, value: u64) -> u64 {
        let tags = &core.tags;
        by_way!(self, hand => tags.write_held(hand, number, value), cache => expect(cache.write(tags, number, value)))
    }

    /// For a tag that had a guard, which ends by this. Returns what went back that was kept only beside it.
    #[inline]
    pub fn post(&mut self, core: &Core, number: u32) -> Freed {
        let tags = &core.tags;
        let freed = by_way!(self,
            hand => {
                expect(tags.post(hand, number));
                0
            },
            cache => expect(cache.post_quietly(tags, number))
        );
        Freed::of(Kind::Ordinary, freed)
    }

    pub fn post_each(&mut self, core: &Core, numbers: impl Iterator<Item = u32>) -> Freed {
        numbers.fold(Freed::NONE, |freed, number| freed.and(self.post(core, number)))
    }

    #[inline]
    pub fn take(&mut self, core: &Core, number: u32) -> Result<Held> {
        let tags = &core.tags;
        by_way!(self, hand => tags.take(hand, number), cache => cache.take(tags, number))?;
        Ok(Held::new(number))
    }
}

impl<T> Member<T> {
    /// Posts a tag that is about to be pushed to a queue, for that alone.
    pub fn post_marked(&self, held: Held) -> (u32, Freed) {
        self.set().queues().marks().set(held.number());
        self.post(held)
    }

    /// Takes a tag that was popped from its queue.
    pub fn take_popped(&self, number: u32) -> Held {
        let marks = self.set().queues().marks();
        let held = marks.wait_for(|| self.take_any(number).ok());
        marks.clear(number);
        held
    }

    fn take_any(&self, number: u32) -> Result<Held> {
        self.call(|way, core| way.take(core, number))
    }

    /// Takes a posted tag, but none that is in a queue. One that was submitted between its look and its take it posts again.
    pub fn take(&self, number: u32) -> Result<Held> {
        let marks = self.set().queues().marks();
        if marks.has(number) {
            return Err(Error::NotPosted);
        }
        let held = self.take_any(number)?;
        if !marks.has(number) {
            return Ok(held);
        }
        // No kept tag goes back with one that the hand did not get.
        let _ = self.post(held);
        marks.tell();
        Err(Error::NotPosted)
    }

    /// Takes posted tags: all of them or none. Those taken before one that is not posted are posted again.
    ///
    /// Takes go in ascending order. So of several calls that overlap one gets its tags, if these were posted and
    /// nothing else takes any: each that is refused was refused for one that took a higher tag.
    pub fn take_mask(&self, posted: Numbers) -> (Result<HeldMask>, Freed) {
        if let Err(error) = self.set().core.check_mask(posted) {
            return (Err(error), Freed::NONE);
        }
        for number in posted.iter() {
            if let Err(error) = self.take(number) {
                let taken = posted.iter().take_while(|it| *it < number);
                return (Err(error), self.call(|way, core| way.post_each(core, taken)));
            }
        }
        (Ok(HeldMask::new(posted)), Freed::NONE)
    }
}

impl Core {
    /// Whether these are numbers of ordinary tags, and some: reserved tags don't go back together.
    fn check_mask(&self, posted: Numbers) -> Result<()> {
        let highest = posted.mask().checked_ilog2().ok_or(Error::BadCount)?;
        let last = posted.first().checked_add(highest).ok_or(Error::NoSuchTag)?;
        self.check_number(last)?;
        if posted.iter().any(|number| number < self.tags.reserved()) {
            return Err(Error::NoSuchTag);
        }
        Ok(())
    }
}
