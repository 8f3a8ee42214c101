//! The kernel's sbitmap_queue, as sbitmap_tags.c offers it. A thread stands for a processor.
use crate::loops::{Slots, Tags, BATCH};
use std::ffi::{c_int, c_uint};
use std::sync::atomic::AtomicU64;

/// The kernel's own.
#[repr(C)]
struct SbitmapQueue {
    _opaque: [u8; 0],
}

unsafe extern "C" {
    fn sbitmap_tags_open(depth: c_uint) -> *mut SbitmapQueue;
    fn sbitmap_tags_join(
        queue: *mut SbitmapQueue,
        processor: c_uint,
        hint: c_uint,
    ) -> *mut SbitmapUser;
    fn sbitmap_tags_leave(user: *mut SbitmapUser);
    fn sbitmap_tags_close(queue: *mut SbitmapQueue) -> bool;
    fn sbitmap_tags_get(user: *mut SbitmapUser) -> c_int;
    fn sbitmap_tags_clear(user: *mut SbitmapUser, tag: c_uint);
    fn sbitmap_tags_pairs(user: *mut SbitmapUser, slots: *const AtomicU64, rounds: u64) -> u64;
    fn sbitmap_tags_ring(
        user: *mut SbitmapUser,
        slots: *const AtomicU64,
        held: *mut u32,
        hold: u64,
        rounds: u64,
    ) -> u64;
    fn sbitmap_tags_batches(
        user: *mut SbitmapUser,
        slots: *const AtomicU64,
        batch: u32,
        rounds: u64,
    ) -> u64;
}

/// A struct sbitmap_user.
#[repr(C)]
struct SbitmapUser {
    _opaque: [u8; 0],
}

/// What a thread has, which stands for a processor.
pub struct User(*mut SbitmapUser);

impl Drop for User {
    fn drop(&mut self) {
        // SAFETY: the thread makes no call any more.
        unsafe { sbitmap_tags_leave(self.0) };
    }
}

/// A queue from its open to its close.
pub struct Kernel {
    queue: *mut SbitmapQueue,
    /// Tags from where one thread's hint begins to where the next one's does.
    stride: u32,
}

// SAFETY: the kernel's calls on one queue may come from all threads at once.
unsafe impl Sync for Kernel {}

impl Tags for Kernel {
    const NAME: &'static str = "kernel";

    type User = User;

    fn open(depth: u32, _threads: u32, stride: u32) -> Kernel {
        // SAFETY: a map may be opened at any time.
        let queue = unsafe { sbitmap_tags_open(depth) };
        assert!(!queue.is_null(), "no memory for the kernel's map");
        Kernel { queue, stride }
    }

    fn enter(&self, index: u32) -> User {
        // SAFETY: the queue is open, and there are no more threads than processors.
        let user = unsafe { sbitmap_tags_join(self.queue, index, index * self.stride) };
        assert!(!user.is_null(), "no memory for a thread");
        User(user)
    }

    #[inline]
    fn get(&self, user: &mut User) -> Option<u32> {
        // SAFETY: the queue is open.
        u32::try_from(unsafe { sbitmap_tags_get(user.0) }).ok()
    }

    #[inline]
    fn clear(&self, user: &mut User, tag: u32) {
        // SAFETY: the queue is open, and the tag was got and is cleared once.
        unsafe { sbitmap_tags_clear(user.0, tag) };
    }

    fn get_batch(&self, _user: &mut User, _tags: &mut [u32; BATCH]) -> usize {
        unreachable!("the loop is C")
    }

    fn clear_batch(&self, _user: &mut User, _tags: &[u32]) {
        unreachable!("the loop is C")
    }

    fn pairs(&self, user: &mut User, slots: &Slots, rounds: u64) -> u64 {
        // SAFETY: the queue is open, and there is a slot for each tag, as there is in the next two.
        unsafe { sbitmap_tags_pairs(user.0, slots.start(), rounds) }
    }

    fn ring(&self, user: &mut User, slots: &Slots, hold: usize, rounds: u64) -> u64 {
        let mut held = vec![0; hold];
        // SAFETY: as of `pairs`, and there is room for what is held.
        unsafe { sbitmap_tags_ring(user.0, slots.start(), held.as_mut_ptr(), hold as u64, rounds) }
    }

    fn batches(&self, user: &mut User, slots: &Slots, rounds: u64) -> u64 {
        // SAFETY: as of `pairs`, and no word of the map is smaller than a batch.
        unsafe { sbitmap_tags_batches(user.0, slots.start(), BATCH as u32, rounds) }
    }

    fn close(self) {
        // SAFETY: no thread calls the queue any more.
        let none_taken = unsafe { sbitmap_tags_close(self.queue) };
        assert!(none_taken, "the kernel's map has a tag that nobody cleared");
    }
}
