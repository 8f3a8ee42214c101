//! Free tags in crossbeam's queue without a lock, which knows no hints.
use crate::loops::{Tags, BATCH};
use crossbeam_queue::ArrayQueue;

/// A queue of fixed room, with a place for each tag.
pub struct Queue(ArrayQueue<u32>);

impl Tags for Queue {
    const NAME: &'static str = "queue";
    type User = ();

    fn open(depth: u32, _threads: u32, _stride: u32) -> Queue {
        let free = ArrayQueue::new(depth as usize);
        for tag in 0..depth {
            let _ = free.push(tag);
        }
        Queue(free)
    }

    fn enter(&self, _index: u32) {}

    #[inline]
    fn get(&self, _user: &mut ()) -> Option<u32> {
        self.0.pop()
    }

    #[inline]
    fn clear(&self, _user: &mut (), tag: u32) {
        let _ = self.0.push(tag);
    }

    #[inline]
    fn get_batch(&self, _user: &mut (), tags: &mut [u32; BATCH]) -> usize {
        let mut count = 0;
        while let Some(tag) = (count < BATCH).then(|| self.0.pop()).flatten() {
            tags[count] = tag;
            count += 1;
        }
        count
    }

    #[inline]
    fn clear_batch(&self, user: &mut (), tags: &[u32]) {
        for &tag in tags {
            self.clear(user, tag);
        }
    }

    fn close(self) {
        assert!(self.0.is_full(), "the queue lacks a tag");
    }
}
