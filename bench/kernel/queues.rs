//! Queues of free tags by C++ libraries without locks, as queues.cpp offers them: boost::lockfree::queue, and moodycamel's.
use crate::loops::{Tags, BATCH};
use std::ffi::{c_uint, c_void};
use std::marker::PhantomData;

unsafe extern "C" {
    fn boost_tags_open(depth: c_uint) -> *mut c_void;
    fn boost_tags_enter(tags: *mut c_void) -> *mut c_void;
    fn boost_tags_leave(user: *mut c_void);
    fn boost_tags_get(user: *mut c_void) -> i32;
    fn boost_tags_clear(user: *mut c_void, tag: c_uint);
    fn boost_tags_close(tags: *mut c_void);
    fn moodycamel_tags_open(depth: c_uint) -> *mut c_void;
    fn moodycamel_tags_enter(tags: *mut c_void) -> *mut c_void;
    fn moodycamel_tags_leave(user: *mut c_void);
    fn moodycamel_tags_get(user: *mut c_void) -> i32;
    fn moodycamel_tags_clear(user: *mut c_void, tag: c_uint);
    fn moodycamel_tags_close(tags: *mut c_void);
}

/// The calls of one library.
pub struct Calls {
    open: unsafe extern "C" fn(c_uint) -> *mut c_void,
    enter: unsafe extern "C" fn(*mut c_void) -> *mut c_void,
    leave: unsafe extern "C" fn(*mut c_void),
    get: unsafe extern "C" fn(*mut c_void) -> i32,
    clear: unsafe extern "C" fn(*mut c_void, c_uint),
    close: unsafe extern "C" fn(*mut c_void),
}

pub trait Library: Sync {
    const NAME: &'static str;
    const CALLS: Calls;
}

pub struct Boost;

impl Library for Boost {
    const NAME: &'static str = "boost queue";
    const CALLS: Calls = Calls {
        open: boost_tags_open,
        enter: boost_tags_enter,
        leave: boost_tags_leave,
        get: boost_tags_get,
        clear: boost_tags_clear,
        close: boost_tags_close,
    };
}

pub struct Moodycamel;

impl Library for Moodycamel {
    const NAME: &'static str = "moodycamel queue";
    const CALLS: Calls = Calls {
        open: moodycamel_tags_open,
        enter: moodycamel_tags_enter,
        leave: moodycamel_tags_leave,
        get: moodycamel_tags_get,
        clear: moodycamel_tags_clear,
        close: moodycamel_tags_close,
    };
}

/// A queue of the free tags from its open to its close.
pub struct FreeQueue<L> {
    tags: *mut c_void,
    depth: u32,
    library: PhantomData<L>,
}

// SAFETY: both libraries' queues take calls from all threads at once.
unsafe impl<L> Sync for FreeQueue<L> {}

/// What one thread has for one run.
pub struct User<L: Library> {
    user: *mut c_void,
    library: PhantomData<L>,
}

impl<L: Library> Drop for User<L> {
    fn drop(&mut self) {
        // SAFETY: it is this thread's alone, and its queue is open, as in each call below.
        unsafe { (L::CALLS.leave)(self.user) };
    }
}

impl<L: Library> Tags for FreeQueue<L> {
    const NAME: &'static str = L::NAME;
    type User = User<L>;

    fn open(depth: u32, _threads: u32, _stride: u32) -> FreeQueue<L> {
        // SAFETY: a queue may be opened at any time.
        let tags = unsafe { (L::CALLS.open)(depth) };
        FreeQueue {
            tags,
            depth,
            library: PhantomData,
        }
    }

    fn enter(&self, _index: u32) -> User<L> {
        // SAFETY: the queue is open.
        let user = unsafe { (L::CALLS.enter)(self.tags) };
        User {
            user,
            library: PhantomData,
        }
    }

    #[inline]
    fn get(&self, user: &mut User<L>) -> Option<u32> {
        // SAFETY: as of `drop`.
        u32::try_from(unsafe { (L::CALLS.get)(user.user) }).ok()
    }

    #[inline]
    fn clear(&self, user: &mut User<L>, tag: u32) {
        // SAFETY: as of `drop`.
        unsafe { (L::CALLS.clear)(user.user, tag) };
    }

    #[inline]
    fn get_batch(&self, user: &mut User<L>, tags: &mut [u32; BATCH]) -> usize {
        let mut count = 0;
        while let Some(tag) = (count < BATCH).then(|| self.get(user)).flatten() {
            tags[count] = tag;
            count += 1;
        }
        count
    }

    #[inline]
    fn clear_batch(&self, user: &mut User<L>, tags: &[u32]) {
        for &tag in tags {
            self.clear(user, tag);
        }
    }

    fn close(self) {
        let mut user = self.enter(0);
        let left = (0..self.depth).filter(|_| self.get(&mut user).is_some()).count();
        drop(user);
        // SAFETY: no thread calls the queue any more.
        unsafe { (L::CALLS.close)(self.tags) };
        assert_eq!(left, self.depth as usize, "the queue lacks a tag");
    }
}
