//! The limit: one locked step for a get and one for a clear, on two lines that no other thread touches, and no search.
use crate::loops::{Tags, BATCH};
use std::sync::atomic::{AtomicU64, Ordering::SeqCst};

/// A word on lines of its own.
#[derive(Default)]
#[repr(align(128))]
struct Line(AtomicU64);

/// Two lines for each thread.
pub struct Limit {
    lines: Vec<[Line; 2]>,
    /// Tags that one thread has in turn.
    share: u32,
}

/// One thread, and the tag that it has next.
pub struct Turn {
    index: u32,
    next: u32,
}

impl Tags for Limit {
    const NAME: &'static str = "limit";
    type User = Turn;

    fn open(depth: u32, threads: u32, _stride: u32) -> Limit {
        Limit {
            lines: (0..threads).map(|_| Default::default()).collect(),
            share: depth / threads,
        }
    }

    fn enter(&self, index: u32) -> Turn {
        Turn { index, next: 0 }
    }

    #[inline]
    fn get(&self, turn: &mut Turn) -> Option<u32> {
        let tag = turn.next;
        turn.next = if tag + 1 < self.share { tag + 1 } else { 0 };
        self.lines[turn.index as usize][0].0.fetch_add(1, SeqCst);
        Some(turn.index * self.share + tag)
    }

    #[inline]
    fn clear(&self, turn: &mut Turn, _tag: u32) {
        self.lines[turn.index as usize][1].0.fetch_add(1, SeqCst);
    }

    #[inline]
    fn get_batch(&self, turn: &mut Turn, tags: &mut [u32; BATCH]) -> usize {
        let count = BATCH.min(self.share as usize);
        let first = if turn.next as usize + count <= self.share as usize {
            turn.next
        } else {
            0
        };
        turn.next = first + count as u32;
        self.lines[turn.index as usize][0].0.fetch_add(1, SeqCst);
        for (place, tag) in tags[..count].iter_mut().enumerate() {
            *tag = turn.index * self.share + first + place as u32;
        }
        count
    }

    #[inline]
    fn clear_batch(&self, turn: &mut Turn, _tags: &[u32]) {
        self.lines[turn.index as usize][1].0.fetch_add(1, SeqCst);
    }

    fn close(self) {}
}
