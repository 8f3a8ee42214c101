//! Free tags in a list behind a lock, which knows no hints.
use crate::loops::{Tags, BATCH};
use std::sync::{Mutex, MutexGuard, PoisonError};

/// A list whose last tag is got first.
pub struct List {
    free: Mutex<Vec<u32>>,
    depth: u32,
}

impl List {
    #[inline]
    fn lock(&self) -> MutexGuard<'_, Vec<u32>> {
        self.free.lock().unwrap_or_else(PoisonError::into_inner)
    }
}

impl Tags for List {
    const NAME: &'static str = "locked list";
    type User = ();

    fn open(depth: u32, _threads: u32, _stride: u32) -> List {
        List {
            free: Mutex::new((0..depth).rev().collect()),
            depth,
        }
    }

    fn enter(&self, _index: u32) {}

    #[inline]
    fn get(&self, _user: &mut ()) -> Option<u32> {
        self.lock().pop()
    }

    #[inline]
    fn clear(&self, _user: &mut (), tag: u32) {
        self.lock().push(tag);
    }

    #[inline]
    fn get_batch(&self, _user: &mut (), tags: &mut [u32; BATCH]) -> usize {
        let mut free = self.lock();
        let count = free.len().min(BATCH);
        let left = free.len() - count;
        tags[..count].copy_from_slice(&free[left..]);
        free.truncate(left);
        count
    }

    #[inline]
    fn clear_batch(&self, _user: &mut (), tags: &[u32]) {
        self.lock().extend_from_slice(tags);
    }

    fn close(self) {
        assert_eq!(
            self.lock().len(),
            self.depth as usize,
            "the list lacks a tag"
        );
    }
}
