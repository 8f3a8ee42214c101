//! A hand that is out.

use crate::allocator::way::{Terms, Way};
use crate::allocator::{Core, Due, Freed, Gotten, Held, HeldMask, Next, Roster, Set, Turn, Waiter};
use crate::batch::Numbers;
use crate::cells::Own;
use crate::error::{Error, Result};
use crate::notes::Note;
use crate::options::{Kind, Sizes};
use crate::proved::tag_pool::Hand;
use alloc::sync::Arc;
use alloc::vec::Vec;

/// A hand with the tags that it belongs to: it is never used with others.
pub(crate) struct Member<T> {
    /// Its calls call nothing of the program, and no other call of the hand.
    way: Own<Way>,
    set: Arc<Set<T>>,
    /// A bit for each tag that the hand holds and that has no guard: 1 is loose.
    loose: Own<Vec<u64>>,
    number: usize,
    /// Whether a note ends before its tag goes back. It is here beside what each clear uses.
    has_notes: bool,
}

impl<T> Member<T> {
    pub(super) fn new(set: Arc<Set<T>>, hand: Hand<u64>, loose: Vec<u64>, terms: Terms) -> Member<T> {
        let way = Way::new(hand, terms);
        Member {
            number: way.number() as usize,
            has_notes: set.notes.is_some(),
            way: Own::new(way),
            set,
            loose: Own::new(loose),
        }
    }

    #[inline(always)]
    pub(super) fn call<R>(&self, call: impl FnOnce(&mut Way, &Core) -> R) -> R {
        self.way.lend(|way| call(way, &self.set.core))
    }

    /// The hand's number, below that of the pool's hands.
    #[inline]
    pub fn number(&self) -> usize {
        self.number
    }

    /// Whether the hand keeps tags.
    pub fn is_cached(&self) -> bool {
        self.call(|way, _| matches!(way, Way::Cached(_)))
    }

    /// The tags that the hand belongs to.
    #[inline]
    pub fn set(&self) -> &Arc<Set<T>> {
        &self.set
    }

    /// Gives the hand back to its pool, once it keeps nothing (`flush`), and with it its share of the tags.
    pub fn leave(self, roster: &mut Roster<T>) {
        if let Some(hand) = self.call(Way::leave) {
            roster.take_back(hand, self.set);
        }
    }

    /// Takes a tag. Without one `outcome` says what the get did.
    #[inline(always)]
    pub fn try_get(&self) -> Option<Held> {
        self.call(Way::try_get)
    }

    /// What a `try_get` did that did not simply win a tag.
    pub fn outcome(&self) -> Gotten<Held> {
        self.call(Way::outcome)
    }

    /// Takes a tag of this kind.
    pub fn get_in(&self, kind: Kind) -> Gotten<Held> {
        self.call(|way, core| way.get_in(core, kind))
    }

    pub fn get_shallow(&self, depth: u32) -> Gotten<Held> {
        self.call(|way, core| way.get_shallow(core, depth))
    }

    pub fn get_exactly(&self, number: u32) -> Gotten<Held> {
        self.call(|way, core| way.get_exactly(core, number))
    }

    /// `n` is at most the tags of a word, or the call is refused.
    #[inline]
    pub fn get_batch(&self, n: u32) -> Gotten<HeldMask> {
        self.call(|way, core| way.get_batch(core, n))
    }

    /// Takes as many tags as there is room for their numbers, each for a guard that is made at once, or none.
    pub fn get_many(&self, numbers: &mut [u32], guard: impl FnMut(Held)) -> Gotten<()> {
        let (found, left) = self.call(|way, core| way.get_many(core, numbers));
        if let Ok(Some(())) = found {
            numbers.iter().copied().map(Held::new).for_each(guard);
        }
        (found, left)
    }

    /// Publishes the note of a tag for its guard, in one call at a time.
    pub fn note(&self, number: u32, note: Note) -> Result<()> {
        let notes = self.set.notes.as_ref().ok_or(Error::NoNotes)?;
        notes.publish(number, note);
        Ok(())
    }

    /// Gives a tag back if that takes little, and otherwise returns it for `clear`.
    #[inline(always)]
    pub fn try_clear(&self, held: Held) -> core::result::Result<(), Held> {
        if self.has_notes {
            return Err(held);
        }
        self.call(|way, core| way.try_clear(core, held))
    }

    /// Gives a tag back, whose note ends before. Returns what became free.
    #[inline]
    pub fn clear(&self, held: Held) -> Freed {
        if let Some(notes) = &self.set.notes {
            notes.end(held.number());
        }
        self.call(|way, core| way.clear(core, held))
    }

    /// What a `try_clear` of this tag made free.
    pub fn freed(&self, number: u32) -> Freed {
        self.call(|way, core| way.freed(core, number))
    }

    #[cold]
    fn end_notes(&self, numbers: Numbers) {
        if let Some(notes) = &self.set.notes {
            numbers.iter().for_each(|number| notes.end(number));
        }
    }

    /// Gives tags back together. Returns what became free, as the calls below do.
    #[inline]
    pub fn clear_mask(&self, held: HeldMask) -> Freed {
        if self.has_notes {
            self.end_notes(held.numbers());
        }
        self.call(|way, core| way.clear_mask(core, held))
    }

    /// Gives all kept tags back.
    pub fn flush(&self) -> Freed {
        self.call(Way::flush)
    }

    /// Tells those who wait for a tag of this kind of those that became free, if any did. If somebody waits for an
    /// ordinary one, what the hand keeps goes back too.
    pub fn see_to(&self, kind: Kind, freed: Freed) -> Due {
        self.call(|way, core| way.see_to(core, kind, freed))
    }

    pub fn read(&self, held: &Held) -> u64 {
        self.call(|way, core| way.read(core, held.number()))
    }

    /// Writes the slot of a tag, and returns the former value.
    pub fn write(&self, held: &Held, value: u64) -> u64 {
        self.call(|way, core| way.write(core, held.number(), value))
    }

    pub fn read_in(&self, held: &HeldMask, number: u32) -> Option<u64> {
        let is_held = held.numbers().has(number);
        is_held.then(|| self.call(|way, core| way.read(core, number)))
    }

    pub fn write_in(&self, held: &HeldMask, number: u32, value: u64) -> Option<u64> {
        let is_held = held.numbers().has(number);
        is_held.then(|| self.call(|way, core| way.write(core, number, value)))
    }

    /// Offers a tag to all hands of the pool, and returns its number. Tags that are kept only beside it go back.
    pub fn post(&self, held: Held) -> (u32, Freed) {
        let number = held.number();
        (number, self.call(|way, core| way.post(core, number)))
    }

    /// Offers tags to all hands of the pool, and returns their numbers.
    pub fn post_mask(&self, held: HeldMask) -> (Numbers, Freed) {
        let numbers = held.numbers();
        (numbers, self.call(|way, core| way.post_each(core, numbers.iter())))
    }

    /// Ends a guard whose tag the hand goes on to hold, and returns its number.
    pub fn let_go(&self, held: Held) -> u32 {
        let number = held.number();
        self.loose
            .lend(|loose| loose[number as usize / 64] |= 1 << (number % 64));
        number
    }

    /// Makes the guard of a tag that the hand holds without one.
    pub fn claim(&self, number: u32) -> Result<Held> {
        let bit = 1 << (number % 64);
        self.loose.lend(|loose| match loose.get_mut(number as usize / 64) {
            Some(bits) if *bits & bit != 0 => {
                *bits &= !bit;
                Ok(Held::new(number))
            }
            _ => Err(Error::NotHeld),
        })
    }

    pub fn busy(&self, into: &mut [u64]) -> Result<u32> {
        self.call(|way, core| way.busy(core, into))
    }

    pub fn show(&self, kind: Kind) -> Sizes {
        self.call(|way, core| way.show(core, kind))
    }

    /// Whether the hand holds this tag. One that it keeps it does not hold.
    pub fn holds(&self, number: u32) -> Result<bool> {
        self.call(|way, core| way.holds(core, number))
    }

    /// One round of a wait for a tag of this kind, after a get that found none: lists the hand as this waiter and tries
    /// each tag, or ends the wait. If it answers `Sleep` the hand may sleep. Otherwise it waits no more and has nothing to see to.
    /// Those told are to be woken.
    pub fn wait_on(&self, kind: Kind, waiter: Waiter, is_over: bool, turn: Turn) -> (Result<Next>, Due) {
        self.call(|way, core| way.wait_on(core, kind, waiter, is_over, turn))
    }

    /// One round of the wait of a hand for futures, also where other calls of the hand came between.
    pub fn listen_on(&self, kind: Kind, is_over: bool, turn: Turn) -> (Result<Next>, Due) {
        self.call(|way, core| way.listen_on(core, kind, is_over, turn))
    }
}
