//! Atomic words, and slots that the words hand from thread to thread.
//!
//! The contracts of Rattle's `atomic_table` are the premises here, and the prover checks them at each call in the proved
//! modules: an index is in range (`word < self.now.table_id.words`), and a seat uses only a slot that it took from the table
//! by a step that the table's rule allows (`self.old.me.1 ≡ (slot, old) ∷ ..`), so that no other seat has that slot. The
//! rules are `Shown` of tag_core, and `BookRule` and `GroupsRule` of wake_book, whose tables have no slots. A debug build
//! checks each index.

use crate::base::park;
use crate::base::sleep::Wait;
use crate::base::vec::{AllocError, Global, Vec};
use crate::base::word::{touch, Word};
use alloc::vec::Vec as Plain;
use core::cell::UnsafeCell;
use core::marker::PhantomData;
use core::mem::ManuallyDrop;
use core::panic::RefUnwindSafe;
use core::sync::atomic::Ordering::SeqCst;

/// The right to step on a table, and to use the slots that it took.
pub struct Seat<S>(PhantomData<fn() -> S>);

/// A table, as those who step on it see it.
pub struct Shared<S> {
    words: Plain<Word>,
    slots: Plain<UnsafeCell<S>>,
}

// SAFETY: a slot is used by the one seat that took it, as the rule `Shown` says, and the words order its uses.
unsafe impl<S: Send> Sync for Shared<S> {}

impl<S: RefUnwindSafe> RefUnwindSafe for Shared<S> {}

/// A table of words and slots.
pub struct Table<S> {
    /// What the seats step on.
    pub shared: Shared<S>,
}

/// Memory ran out: the slots come back.
pub struct Refused<S> {
    /// The slots.
    pub slots: Vec<S>,
}

/// What a table leaves.
pub struct Closed<S> {
    words: Plain<Word>,
    slots: Plain<ManuallyDrop<S>>,
}

/// The same vector, its items seen as those of a transparent wrapper or of what is wrapped.
///
/// # Safety
///
/// One of both types is a `repr(transparent)` wrapper of the other, without an invariant of its own.
unsafe fn recast<A, B>(items: Plain<A>) -> Plain<B> {
    let mut items = ManuallyDrop::new(items);
    // SAFETY: both types have the same layout, and the vector is not used again.
    unsafe { Plain::from_raw_parts(items.as_mut_ptr().cast(), items.len(), items.capacity()) }
}

impl<S> Table<S> {
    /// A table of these words and slots, with the seat that may step on it.
    pub fn new(_: Global, words: &[u64], slots: Vec<S>) -> Result<(Self, Seat<S>), Refused<S>> {
        let mut all = Plain::new();
        if all.try_reserve_exact(words.len()).is_err() {
            return Err(Refused { slots });
        }
        all.extend(words.iter().map(|word| Word::new(*word)));
        // SAFETY: an `UnsafeCell` is a transparent wrapper.
        let slots = unsafe { recast(slots.into()) };
        let shared = Shared { words: all, slots };
        Ok((Table { shared }, Seat(PhantomData)))
    }

    /// A table without slots.
    pub fn of_words(alloc: Global, words: &[u64]) -> Result<(Self, Seat<S>), AllocError> {
        Table::new(alloc, words, Vec::new(alloc)).map_err(|_| AllocError)
    }

    /// Ends the table, with the one seat that is left.
    pub fn close_with(self, _: Seat<S>) -> Closed<S> {
        let Shared { words, slots } = self.shared;
        // SAFETY: both are transparent wrappers of the same type.
        let slots = unsafe { recast(slots) };
        Closed { words, slots }
    }
}

impl<S> Closed<S> {
    /// Frees the memory. Every slot was taken.
    pub fn free(self) {}

    /// What a word was last.
    pub fn word(&self, index: usize) -> u64 {
        self.words[index].load(SeqCst)
    }

    /// The number of slots, those taken among them.
    pub fn slot_count(&self) -> usize {
        self.slots.len()
    }

    /// Takes the value of a slot, once.
    pub fn take(&mut self, index: usize) -> S {
        // SAFETY: the slot was not taken before (`slots_filled`, a `requires` of this call).
        unsafe { ManuallyDrop::take(&mut self.slots[index]) }
    }
}

macro_rules! steps {
    ($($name:ident)*) => {$(
        /// A step on the word, by the processor's operation of this name. Returns what the word was.
        #[inline]
        pub fn $name(&self, _: &mut Seat<S>, index: usize, value: u64) -> u64 {
            self.at(index).$name(value, SeqCst)
        }
    )*};
}

impl<S> Shared<S> {
    steps!(swap fetch_add fetch_sub fetch_and fetch_or);

    #[inline(always)]
    fn at(&self, index: usize) -> &Word {
        debug_assert!(index < self.words.len(), "a word below their number");
        // SAFETY: `word < self.now.table_id.words`, a `requires` of each call below.
        unsafe { self.words.get_unchecked(index) }
    }

    #[inline(always)]
    fn slot(&self, index: usize) -> *mut S {
        debug_assert!(index < self.slots.len(), "a slot below their number");
        // SAFETY: the seat took the slot (`self.old.me.1`), so there is one.
        let slot = unsafe { self.slots.get_unchecked(index) }.get();
        touch(slot);
        slot
    }

    /// What a word is, without a seat.
    #[inline]
    pub fn peek(&self, index: usize) -> u64 {
        self.at(index).load(SeqCst)
    }

    /// One more seat.
    #[inline]
    pub fn split_seat(&self, _: &mut Seat<S>) -> Seat<S> {
        Seat(PhantomData)
    }

    /// Gives up the other seat.
    #[inline]
    pub fn join_seat(&self, _: &mut Seat<S>, _: Seat<S>) {}

    /// What the word is.
    #[inline]
    pub fn load(&self, _: &mut Seat<S>, index: usize) -> u64 {
        self.at(index).load(SeqCst)
    }

    /// Writes the word.
    #[inline]
    pub fn store(&self, _: &mut Seat<S>, index: usize, value: u64) {
        self.at(index).store(value, SeqCst);
    }

    /// Returns what the word was. The exchange was made if that is `expected`.
    #[inline]
    pub fn compare_exchange(&self, _: &mut Seat<S>, index: usize, expected: u64, new: u64) -> u64 {
        match self.at(index).compare_exchange(expected, new, SeqCst, SeqCst) {
            Ok(found) | Err(found) => found,
        }
    }

    /// Puts another value into a slot that the seat took, and returns the former one.
    #[inline]
    pub fn exchange(&self, _: &mut Seat<S>, index: usize, value: S) -> S {
        // SAFETY: the seat took the slot (`self.old.me.1`), and is borrowed for the call.
        unsafe { core::mem::replace(&mut *self.slot(index), value) }
    }

    /// Sleeps while the low half of the word is `expected`. It may return for no reason.
    pub fn park<W: Wait>(&self, _: &W, index: usize, expected: u32) {
        park::park(self.at(index), expected);
    }

    /// Wakes one of those who sleep on the word.
    pub fn wake_one(&self, index: usize) {
        park::wake(self.at(index), 1);
    }
}

impl<S> Seat<S> {
    /// A slot that the seat took.
    #[inline]
    pub fn slot_mut<'a>(&'a mut self, table: &'a Shared<S>, index: usize) -> &'a mut S {
        // SAFETY: the seat took the slot (`self.old.me.1`), and is borrowed as long as the slot.
        unsafe { &mut *table.slot(index) }
    }
}
