//! Calls that take tags. Each says what its sweeps made free and it did not take, of which those who wait are to be told.

use crate::allocator::way::{by_way, Cached, Outcome, Plain, Way};
use crate::allocator::{Core, Freed, Held, HeldMask};
use crate::batch::Numbers;
use crate::error::Result;
use crate::options::Kind;
use crate::proved::tag_pool::{Found, TagFault, Unfinished};

/// What a get found, and what it made free and did not take.
pub(crate) type Gotten<H> = (Result<Option<H>>, Freed);

type Answer<A> = core::result::Result<Found<A>, TagFault>;

/// Returns the tag that a get won, if that is all to be said of it.
#[inline(always)]
fn won(found: Answer<u32>, outcome: &mut Outcome) -> Option<Held> {
    if let Ok(Found {
        answer: Some(tag),
        left: 0,
    }) = found
    {
        return Some(Held::new(tag));
    }
    *outcome = Some(found);
    None
}

fn gotten<A, H>(kind: Kind, found: Answer<A>, hold: impl FnOnce(A) -> H) -> Gotten<H> {
    match found {
        // There are at most 64 hands to be told.
        Ok(Found { answer, left }) => (Ok(answer.map(hold)), Freed::of(kind, left.min(64) as u32)),
        Err(fault) => (Err(fault.into()), Freed::NONE),
    }
}

// What a get does after its first try is out of line and called last, with numbers alone: the first try then needs no
// memory, and saves few registers.
impl Plain {
    #[inline]
    fn try_get(&mut self, core: &Core) -> Option<Held> {
        match core.tags.begin_get(&mut self.hand) {
            Ok(tag) => Some(Held::new(tag)),
            Err(Unfinished::NotBegun) => self.get_whole(core),
            Err(Unfinished::Full) => self.get_past_full(core),
            Err(Unfinished::Lost { from, found }) => self.get_past_lost(core, from, found),
        }
    }

    #[cold]
    #[inline]
    fn get_whole(&mut self, core: &Core) -> Option<Held> {
        won(core.tags.get_quietly(&mut self.hand), &mut self.outcome)
    }

    /// Goes on after a first try that found the hint's word full.
    #[cold]
    #[inline]
    fn get_past_full(&mut self, core: &Core) -> Option<Held> {
        let found = core.tags.finish_get(&mut self.hand, Unfinished::Full);
        won(Ok(found), &mut self.outcome)
    }

    /// Goes on after a first try that lost its claim, at the place `from` of the word as the claim found it.
    #[cold]
    #[inline]
    fn get_past_lost(&mut self, core: &Core, from: u32, found: u64) -> Option<Held> {
        let found = core.tags.finish_get(&mut self.hand, Unfinished::Lost { from, found });
        won(Ok(found), &mut self.outcome)
    }
}

impl Cached {
    #[cold]
    #[inline]
    fn get_any(&mut self, core: &Core) -> Option<Held> {
        won(self.cache.get_quietly(&core.tags), &mut self.outcome)
    }
}

impl Way {
    /// Takes a tag. Without one `outcome` says what the get did.
    #[inline]
    pub fn try_get(&mut self, core: &Core) -> Option<Held> {
        match self {
            Way::Plain(plain) => plain.try_get(core),
            Way::Cached(cached) if cached.cache.keeps_none() => cached.get_any(core),
            Way::Cached(cached) => Some(Held::new(cached.cache.get_kept(&core.tags))),
            Way::Left => None,
        }
    }

    /// What a `try_get` did that did not simply win a tag.
    pub fn outcome(&mut self, core: &Core) -> Gotten<Held> {
        let first = self.first_outcome();
        self.wrap(core, first, Way::get_once)
    }

    /// Under round robin a get that found no tag is made once more. It tries no tag of its first word before its start, but
    /// has moved that to the first tag.
    fn wrap<H>(
        &mut self,
        core: &Core,
        first: Gotten<H>,
        again: impl FnOnce(&mut Way, &Core) -> Gotten<H>,
    ) -> Gotten<H> {
        let (Ok(None), left) = first else { return first };
        if !core.round_robin {
            return first;
        }
        let (found, more) = again(self, core);
        (found, left.and(more))
    }

    fn first_outcome(&mut self) -> Gotten<Held> {
        let outcome = match self {
            Way::Plain(plain) => plain.outcome.take(),
            Way::Cached(cached) => cached.outcome.take(),
            Way::Left => None,
        };
        gotten(Kind::Ordinary, outcome.expect("a get ends somehow"), Held::new)
    }

    /// Takes a tag of this kind.
    pub fn get_in(&mut self, core: &Core, kind: Kind) -> Gotten<Held> {
        match kind {
            Kind::Ordinary => self.get(core),
            Kind::Reserved => self.get_reserved(core),
        }
    }

    fn get(&mut self, core: &Core) -> Gotten<Held> {
        match self.try_get(core) {
            Some(held) => (Ok(Some(held)), Freed::NONE),
            None => self.outcome(core),
        }
    }

    fn get_once(&mut self, core: &Core) -> Gotten<Held> {
        match self.try_get(core) {
            Some(held) => (Ok(Some(held)), Freed::NONE),
            None => self.first_outcome(),
        }
    }

    fn get_reserved(&mut self, core: &Core) -> Gotten<Held> {
        let first = self.get_reserved_once(core);
        self.wrap(core, first, Way::get_reserved_once)
    }

    fn get_reserved_once(&mut self, core: &Core) -> Gotten<Held> {
        let tags = &core.tags;
        let found = by_way!(self,
            hand => tags.get_reserved_quietly(hand),
            cache => cache.get_reserved_quietly(tags)
        );
        gotten(Kind::Reserved, found, Held::new)
    }

    pub fn get_shallow(&mut self, core: &Core, depth: u32) -> Gotten<Held> {
        let tags = &core.tags;
        let found = by_way!(self,
            hand => tags.get_shallow_quietly(hand, depth),
            cache => cache.get_shallow_quietly(tags, depth)
        );
        gotten(Kind::Ordinary, found, Held::new)
    }

    pub fn get_exactly(&mut self, core: &Core, number: u32) -> Gotten<Held> {
        let tags = &core.tags;
        let found = by_way!(self,
            hand => tags.get_exactly_quietly(hand, number),
            cache => cache.get_exactly_quietly(tags, number)
        );
        gotten(core.kind(number), found, Held::new)
    }

    #[inline]
    pub fn get_batch(&mut self, core: &Core, n: u32) -> Gotten<HeldMask> {
        let tags = &core.tags;
        let found = by_way!(self,
            hand => tags.get_batch_quietly(hand, n),
            cache => cache.get_batch_quietly(tags, n)
        );
        gotten(Kind::Ordinary, found, |(first, won)| {
            HeldMask::new(Numbers::new(first, won))
        })
    }

    /// Fills in the numbers of as many tags as there are places, or takes none.
    pub fn get_many(&mut self, core: &Core, numbers: &mut [u32]) -> Gotten<()> {
        let first = self.get_many_once(core, numbers);
        self.wrap(core, first, |way, core| way.get_many_once(core, numbers))
    }

    fn get_many_once(&mut self, core: &Core, numbers: &mut [u32]) -> Gotten<()> {
        let tags = &core.tags;
        let found = by_way!(self,
            hand => tags.get_many_quietly(hand, numbers),
            cache => cache.get_many_quietly(tags, numbers)
        );
        let found = found.map(|(all, left)| Found {
            answer: all.then_some(()),
            left,
        });
        gotten(Kind::Ordinary, found, |()| ())
    }
}
