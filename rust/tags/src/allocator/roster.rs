//! The hands of a pool that no thread has, and what is done while all of them are back.

use crate::allocator::way::Terms;
use crate::allocator::{Core, Member, Set, MAX_TOTAL};
use crate::base::vec::{Global, Vec};
use crate::bell::numbers_in;
use crate::cells::Values;
use crate::error::{Error, Result};
use crate::notes::{Found, Notes};
use crate::options::{Kind, Sizes, Totals};
use crate::proved::tag_pool::{Hand, Pool, PoolGatherFault, PoolResizeFault};
use crate::queues::Queues;
use alloc::sync::Arc;

/// The tags of a pool, and its hands that are not out.
pub(crate) struct Roster<T> {
    /// `None` only once the pool is closed.
    pub(super) set: Option<Arc<Set<T>>>,
    /// Hands of these tags. The one that joins next is the last.
    pub(super) idle: Vec<Hand<u64>>,
    /// Number of all hands, idle or out. There is room for all of them in `idle`.
    pub(super) hands: u32,
    pub(super) terms: Terms,
}

impl<T> Roster<T> {
    fn set(&self) -> &Arc<Set<T>> {
        self.set.as_ref().expect("a roster has its tags until it is closed")
    }

    /// Gives a hand out. If `is_placed`, its next gets begin in its own part of the tags, and otherwise where its last
    /// get left off.
    pub fn join(&mut self, is_placed: bool) -> Result<Member<T>> {
        let set = Arc::clone(self.set());
        let mut hand = self.idle.pop().ok_or(Error::NoHand)?;
        let Ok(loose) = set.core.held_by(&hand) else {
            self.idle.push_reserved(hand);
            return Err(Error::NoMemory);
        };
        if is_placed {
            set.core.tags.place(&mut hand);
        }
        Ok(Member::new(set, hand, loose, self.terms))
    }

    /// Takes a hand back, which then must not be used any more: `Member::leave` gives it. Its share of the tags ends
    /// here, so that whoever finds all hands back has the tags alone.
    pub fn take_back(&mut self, hand: Hand<u64>, set: Arc<Set<T>>) {
        assert!(Arc::ptr_eq(self.set(), &set), "a hand goes back to its own pool");
        self.idle.push_reserved(hand);
    }

    fn are_all_back(&self) -> bool {
        self.idle.len() == self.hands as usize
    }

    /// Takes the tags out if all hands are back. Nobody else uses them then.
    fn take_set(&mut self) -> Result<Set<T>> {
        if !self.are_all_back() {
            return Err(Error::HandsOut);
        }
        let set = self.set.take().expect("a roster has its tags until it is closed");
        Ok(Arc::into_inner(set).expect("a hand that is back has let go of them"))
    }

    /// Changes the number of tags, with other values for the ordinary ones, if all hands are back and no tag is in use.
    /// Returns the values that are not needed: the former ones, or those others.
    pub fn resize(&mut self, total: u32, others: Values<T>) -> (Values<T>, Result<()>) {
        let mut set = match self.check_total(total).and_then(|()| self.take_set()) {
            Ok(set) => set,
            Err(error) => return (others, Err(error)),
        };
        let reserved = set.core.tags.reserved();
        let room = set.values.room_for(reserved, &others);
        let (left, answer) = match room.and_then(|room| Ok((room, set.notes_for(total)?, set.queues.renewed(total)?))) {
            Err(error) => (others, Err(error)),
            Ok((room, notes, queues)) => {
                let (tags, answer) = self.resize_tags(set.core.tags, total);
                set.core.tags = tags;
                match answer {
                    Ok(()) => {
                        set.notes = notes;
                        set.queues = queues;
                        (set.values.replace(reserved, others, room), Ok(()))
                    }
                    Err(error) => (others, Err(error)),
                }
            }
        };
        self.set = Some(Arc::new(set));
        (left, answer)
    }

    fn check_total(&self, total: u32) -> Result<()> {
        if total > MAX_TOTAL {
            return Err(Error::TotalTooLarge);
        }
        if total < self.set().core.tags.reserved() {
            return Err(Error::ReservedTooLarge);
        }
        Ok(())
    }

    fn resize_tags(&mut self, tags: Pool<u64>, total: u32) -> (Pool<u64>, Result<()>) {
        let idle = core::mem::replace(&mut self.idle, Vec::new(Global));
        let (tags, hands, answer) = match Pool::resize(Global, tags, idle, total) {
            Ok((tags, hands)) => (tags, hands, Ok(())),
            Err(PoolResizeFault { cause, pool, hands }) => (pool, hands, Err(cause.into())),
        };
        self.idle = hands;
        (tags, answer)
    }

    /// Closes the pool if all hands are back, and returns the totals, and the values to be dropped.
    pub fn close(&mut self) -> Result<(Totals, Values<T>)> {
        let Set { core, values, .. } = self.take_set()?;
        let idle = core::mem::replace(&mut self.idle, Vec::new(Global));
        match Pool::gather(core.tags, idle) {
            Ok(sums) => {
                let totals = Totals {
                    got: sums.got,
                    back: sums.back,
                    held: sums.held,
                    posted: sums.posted,
                };
                Ok((totals, values))
            }
            Err(PoolGatherFault { .. }) => unreachable!("all hands are back"),
        }
    }

    /// The queues of submitted tags.
    pub fn queues(&self) -> &Queues {
        self.set().queues()
    }

    /// Number of tags of both sets.
    pub fn total(&self) -> u32 {
        self.set().core.tags.depth()
    }

    /// Tells which tags are busy, as `Hand::busy` does, but without a hand.
    pub fn busy(&self, into: &mut [u64]) -> Result<u32> {
        let core = &self.set().core;
        core.check_room(into)?;
        Ok(core.tags.peek_busy(into))
    }

    /// Finds busy tags from a number on, with their notes, as many as there is room for.
    pub fn find_noted(&self, from: u32, found: &mut Found) -> Result<()> {
        let set = self.set();
        let notes = set.notes.as_ref().ok_or(Error::NoNotes)?;
        let mut busy = [0; MAX_TOTAL as usize / 64];
        set.core.tags.peek_busy(&mut busy);
        let tags = numbers_in(busy).skip_while(|tag| *tag < from);
        let mut noted = tags.map(|tag| (tag, notes.find(tag)));
        found.fill_with(|| noted.next());
        Ok(())
    }

    /// Returns the sizes of a set, without a hand.
    pub fn show(&self, kind: Kind) -> Sizes {
        self.set().core.tags.peek_show(kind.into()).into()
    }
}

impl<T> Set<T> {
    /// As many of its own has a set of `total` tags, of which none is in use.
    fn notes_for(&self, total: u32) -> Result<Option<Notes>> {
        self.notes.as_ref().map(|_| Notes::new(total)).transpose()
    }
}

impl Core {
    /// Returns a bit for each tag that a hand of these tags holds: those that it held when it left before.
    fn held_by(&self, hand: &Hand<u64>) -> Result<alloc::vec::Vec<u64>> {
        let words = self.tags.depth().div_ceil(64) as usize;
        let mut bits = alloc::vec::Vec::new();
        bits.try_reserve_exact(words).map_err(|_| Error::NoMemory)?;
        bits.resize(words, 0);
        if self.tags.peek_busy(&mut bits) == 0 {
            return Ok(bits);
        }
        for (word, first) in bits.iter_mut().zip((0..).step_by(64)) {
            let is_held = |at: &u32| *word >> at & 1 == 1 && hand.holds(first + at);
            *word = (0..64).filter(is_held).fold(0, |held, at| held | 1 << at);
        }
        Ok(bits)
    }
}
