//! DPDK's rte_mempool, as mempool_tags.c offers it: a ring of free objects, and a cache of them for each thread.
use crate::loops::{Slots, Tags, BATCH};
use std::ffi::{c_int, c_uint};
use std::sync::atomic::{AtomicU64, Ordering::Relaxed};

/// Tags that a cache keeps, as many as those of `tag_bench cache`.
const MOST: u32 = 8;

/// A struct mempool_tags.
#[repr(C)]
struct Pool {
    _opaque: [u8; 0],
}

/// DPDK's own.
#[repr(C)]
struct RteMempoolCache {
    _opaque: [u8; 0],
}

unsafe extern "C" {
    fn mempool_tags_open(depth: c_uint) -> *mut Pool;
    fn mempool_tags_slots(tags: *const Pool) -> *const *const AtomicU64;
    fn mempool_tags_enter(most: c_uint) -> *mut RteMempoolCache;
    fn mempool_tags_leave(tags: *mut Pool, cache: *mut RteMempoolCache);
    fn mempool_tags_close(tags: *mut Pool) -> bool;
    fn mempool_tags_get(tags: *mut Pool, cache: *mut RteMempoolCache) -> c_int;
    fn mempool_tags_clear(tags: *mut Pool, cache: *mut RteMempoolCache, tag: c_uint);
    fn mempool_tags_get_batch(
        tags: *mut Pool,
        cache: *mut RteMempoolCache,
        got: *mut c_uint,
        count: c_uint,
    ) -> c_uint;
    fn mempool_tags_clear_batch(
        tags: *mut Pool,
        cache: *mut RteMempoolCache,
        cleared: *const c_uint,
        count: c_uint,
    );
}

/// A pool from its open to its close.
pub struct Mempool {
    pool: *mut Pool,
    /// The slot of each tag.
    slots: *const *const AtomicU64,
}

// SAFETY: calls on one pool may come from all threads at once, each with a cache of its own.
unsafe impl Sync for Mempool {}

impl Mempool {
    /// Whether each thread finds the tags that it is to hold. What the cache of another thread keeps it does not find, and a
    /// cache takes more tags than its thread asks for.
    pub fn can_hold(depth: u32, threads: u32, held: u32) -> bool {
        let kept = (threads - 1) * (2 * MOST);
        threads * held + kept <= depth
    }
}

/// One thread's cache for one run.
pub struct Cache {
    pool: *mut Pool,
    cache: *mut RteMempoolCache,
}

impl Drop for Cache {
    fn drop(&mut self) {
        // SAFETY: the cache is this thread's alone, and the pool is open, as in each call below.
        unsafe { mempool_tags_leave(self.pool, self.cache) };
    }
}

impl Tags for Mempool {
    const NAME: &'static str = "mempool";
    type User = Cache;

    fn open(depth: u32, _threads: u32, _stride: u32) -> Mempool {
        // SAFETY: one thread opens pools, one after another.
        let pool = unsafe { mempool_tags_open(depth) };
        assert!(!pool.is_null(), "DPDK does not start, or has no memory");
        // SAFETY: the pool is open.
        let slots = unsafe { mempool_tags_slots(pool) };
        Mempool { pool, slots }
    }

    fn enter(&self, _index: u32) -> Cache {
        // SAFETY: DPDK has started.
        let cache = unsafe { mempool_tags_enter(MOST) };
        assert!(!cache.is_null(), "no memory for a cache");
        Cache {
            pool: self.pool,
            cache,
        }
    }

    #[inline]
    fn get(&self, user: &mut Cache) -> Option<u32> {
        // SAFETY: as of `drop`.
        u32::try_from(unsafe { mempool_tags_get(user.pool, user.cache) }).ok()
    }

    /// The slot is the object's own, as programs over a mempool have it.
    #[inline]
    fn touch(&self, _user: &mut Cache, _slots: &Slots, tag: u32, value: u64) {
        // SAFETY: the pool is open, and there are as many objects as tags.
        let slot = unsafe { &**self.slots.add(tag as usize) };
        std::hint::black_box(slot.load(Relaxed));
        slot.store(value, Relaxed);
    }

    #[inline]
    fn clear(&self, user: &mut Cache, tag: u32) {
        // SAFETY: as of `drop`, and the tag was got and is cleared once.
        unsafe { mempool_tags_clear(user.pool, user.cache, tag) };
    }

    #[inline]
    fn get_batch(&self, user: &mut Cache, tags: &mut [u32; BATCH]) -> usize {
        // SAFETY: as of `drop`, and the array has room for a batch.
        let got = unsafe {
            mempool_tags_get_batch(user.pool, user.cache, tags.as_mut_ptr(), BATCH as u32)
        };
        got as usize
    }

    #[inline]
    fn clear_batch(&self, user: &mut Cache, tags: &[u32]) {
        let count = tags.len() as u32;
        // SAFETY: as of `drop`, and the tags were got and are cleared once.
        unsafe { mempool_tags_clear_batch(user.pool, user.cache, tags.as_ptr(), count) };
    }

    fn close(self) {
        // SAFETY: no thread has a cache any more.
        let all_back = unsafe { mempool_tags_close(self.pool) };
        assert!(all_back, "the pool lacks a tag");
    }
}
