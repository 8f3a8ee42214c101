//! The tags of this repository as a C program has them: the calls of tags.h, through c_tags.c. What belongs to a tag is kept in
//! the pool's slots, or, as beside the kernel's sbitmap, in an array of the program's own.
use crate::loops::{Slots, Tags, BATCH};
use std::marker::PhantomData;
use std::sync::atomic::AtomicU64;
use std::sync::{Mutex, PoisonError};

/// A struct tags_pool.
#[repr(C)]
struct CPool {
    _opaque: [u8; 0],
}

/// A struct tags_hand.
#[repr(C)]
pub struct CHand {
    _opaque: [u8; 0],
}

unsafe extern "C" {
    fn c_tags_open(total: u32, hands: u32, cache: u32) -> *mut CPool;
    fn c_tags_join(pool: *mut CPool, stays: bool) -> *mut CHand;
    fn c_tags_leave(hand: *mut CHand);
    fn c_tags_close(pool: *mut CPool) -> bool;
    fn c_tags_get(hand: *mut CHand) -> i32;
    fn c_tags_clear(hand: *mut CHand, tag: u32) -> i32;
    fn c_tags_write(hand: *mut CHand, tag: u32, value: u64, former: *mut u64) -> i32;
    fn c_tags_post(hand: *mut CHand, tag: u32) -> i32;
    fn c_tags_take(hand: *mut CHand, tag: u32) -> i32;
    fn c_tags_beside_pairs(hand: *mut CHand, slots: *const AtomicU64, rounds: u64) -> u64;
    fn c_tags_beside_ring(
        hand: *mut CHand,
        slots: *const AtomicU64,
        held: *mut u32,
        hold: u64,
        rounds: u64,
    ) -> u64;
    fn c_tags_beside_batches(
        hand: *mut CHand,
        slots: *const AtomicU64,
        batch: u32,
        rounds: u64,
    ) -> u64;
    fn c_tags_in_pool_pairs(hand: *mut CHand, slots: *const AtomicU64, rounds: u64) -> u64;
    fn c_tags_in_pool_ring(
        hand: *mut CHand,
        slots: *const AtomicU64,
        held: *mut u32,
        hold: u64,
        rounds: u64,
    ) -> u64;
    fn c_tags_in_pool_batches(
        hand: *mut CHand,
        slots: *const AtomicU64,
        batch: u32,
        rounds: u64,
    ) -> u64;
}

/// The loops of loops.h, as c_tags.c has them.
pub struct Loops {
    pairs: unsafe extern "C" fn(*mut CHand, *const AtomicU64, u64) -> u64,
    ring: unsafe extern "C" fn(*mut CHand, *const AtomicU64, *mut u32, u64, u64) -> u64,
    batches: unsafe extern "C" fn(*mut CHand, *const AtomicU64, u32, u64) -> u64,
}

const BESIDE: Loops = Loops {
    pairs: c_tags_beside_pairs,
    ring: c_tags_beside_ring,
    batches: c_tags_beside_batches,
};

/// Where a program keeps what belongs to a tag, and how many tags each of its hands keeps.
pub trait Keeping: Sync {
    const NAME: &'static str;
    const CACHE: u32 = 0;
    const LOOPS: Loops = BESIDE;

    #[inline]
    fn touch(_hand: &mut Hand, slots: &Slots, tag: u32, value: u64) {
        slots.touch(tag, value);
    }
}

/// In the pool's slots, each of which only the holder of its tag reads and writes.
pub struct InPool;

impl Keeping for InPool {
    const NAME: &'static str = "tag_c";
    const LOOPS: Loops = Loops {
        pairs: c_tags_in_pool_pairs,
        ring: c_tags_in_pool_ring,
        batches: c_tags_in_pool_batches,
    };

    #[inline]
    fn touch(hand: &mut Hand, _slots: &Slots, tag: u32, value: u64) {
        let mut former = 0;
        // SAFETY: as of `drop`.
        unsafe { c_tags_write(hand.0, tag, value, &mut former) };
    }
}

/// In an array of the program's own.
pub struct Beside;

impl Keeping for Beside {
    const NAME: &'static str = "tag_c, own slots";
}

/// The same, over a cache of as many tags as the workloads of tag_bench have.
pub struct BesideCached;

impl Keeping for BesideCached {
    const NAME: &'static str = "tag_c, cache";
    const CACHE: u32 = 8;
}

/// A pool from its open to its close. One thread at a time joins.
pub struct TagC<K> {
    pool: Mutex<*mut CPool>,
    stays: bool,
    keeping: PhantomData<K>,
}

// SAFETY: the lock keeps the pool to one call at a time.
unsafe impl<K> Sync for TagC<K> {}

/// A hand of one thread for one run.
pub struct Hand(*mut CHand);

impl Drop for Hand {
    fn drop(&mut self) {
        // SAFETY: the hand is this thread's alone, as it is in each call below.
        unsafe { c_tags_leave(self.0) };
    }
}

impl<K: Keeping> Tags for TagC<K> {
    const NAME: &'static str = K::NAME;
    type User = Hand;

    fn open(depth: u32, threads: u32, stride: u32) -> TagC<K> {
        TagC {
            // SAFETY: a pool may be opened at any time.
            pool: Mutex::new(unsafe { c_tags_open(depth, threads, K::CACHE) }),
            stays: stride == 0,
            keeping: PhantomData,
        }
    }

    fn enter(&self, _index: u32) -> Hand {
        let pool = self.pool.lock().unwrap_or_else(PoisonError::into_inner);
        // SAFETY: the pool is open until `close`.
        Hand(unsafe { c_tags_join(*pool, self.stays) })
    }

    #[inline]
    fn get(&self, hand: &mut Hand) -> Option<u32> {
        // SAFETY: as of `drop`.
        u32::try_from(unsafe { c_tags_get(hand.0) }).ok()
    }

    #[inline]
    fn touch(&self, hand: &mut Hand, slots: &Slots, tag: u32, value: u64) {
        K::touch(hand, slots, tag, value);
    }

    #[inline]
    fn clear(&self, hand: &mut Hand, tag: u32) {
        // SAFETY: as of `drop`.
        unsafe { c_tags_clear(hand.0, tag) };
    }

    #[inline]
    fn post(&self, hand: &mut Hand, tag: u32) {
        // SAFETY: as of `drop`.
        unsafe { c_tags_post(hand.0, tag) };
    }

    #[inline]
    fn take(&self, hand: &mut Hand, tag: u32) {
        // SAFETY: as of `drop`.
        unsafe { c_tags_take(hand.0, tag) };
    }

    fn get_batch(&self, _hand: &mut Hand, _tags: &mut [u32; BATCH]) -> usize {
        unreachable!("the loop is C")
    }

    fn clear_batch(&self, _hand: &mut Hand, _tags: &[u32]) {
        unreachable!("the loop is C")
    }

    fn pairs(&self, hand: &mut Hand, slots: &Slots, rounds: u64) -> u64 {
        // SAFETY: as of `drop`, and there is a slot for each tag, as there is in the next two.
        unsafe { (K::LOOPS.pairs)(hand.0, slots.start(), rounds) }
    }

    fn ring(&self, hand: &mut Hand, slots: &Slots, hold: usize, rounds: u64) -> u64 {
        let mut held = vec![0; hold];
        // SAFETY: as of `pairs`, and there is room for what is held.
        unsafe { (K::LOOPS.ring)(hand.0, slots.start(), held.as_mut_ptr(), hold as u64, rounds) }
    }

    fn batches(&self, hand: &mut Hand, slots: &Slots, rounds: u64) -> u64 {
        // SAFETY: as of `pairs`.
        unsafe { (K::LOOPS.batches)(hand.0, slots.start(), BATCH as u32, rounds) }
    }

    fn close(self) {
        let pool = self.pool.into_inner().unwrap_or_else(PoisonError::into_inner);
        // SAFETY: no thread has a hand any more.
        let is_balanced = unsafe { c_tags_close(pool) };
        assert!(is_balanced, "a tag was not cleared");
    }
}
