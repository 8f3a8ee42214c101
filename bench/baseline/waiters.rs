//! Gets that wait: a free list behind a lock, on which threads sleep while it is empty.
use crate::frame::{Case, Options};
use crate::steps::Line;
use std::hint::black_box;
use std::sync::atomic::Ordering::Relaxed;
use std::sync::{Condvar, Mutex, MutexGuard, PoisonError};

/// What the lock guards.
struct Free {
    tags: Vec<u32>,
    /// How many threads sleep until a tag is cleared.
    waiting: u32,
}

/// The free tags, and a value beside each tag.
struct List {
    free: Mutex<Free>,
    cleared: Condvar,
    slots: Vec<Line>,
}

impl List {
    fn open(depth: u32) -> List {
        List {
            free: Mutex::new(Free {
                tags: (0..depth).rev().collect(),
                waiting: 0,
            }),
            cleared: Condvar::new(),
            slots: (0..depth).map(|_| Line::default()).collect(),
        }
    }

    fn lock(&self) -> MutexGuard<'_, Free> {
        self.free.lock().unwrap_or_else(PoisonError::into_inner)
    }

    /// A free tag. Sleeps until there is one.
    fn get(&self) -> u32 {
        let mut free = self.lock();
        loop {
            if let Some(tag) = free.tags.pop() {
                return tag;
            }
            free.waiting += 1;
            free = self.cleared.wait(free).unwrap_or_else(PoisonError::into_inner);
            free.waiting -= 1;
        }
    }

    fn touch(&self, tag: u32, value: u64) {
        let slot = &self.slots[tag as usize].0;
        black_box(slot.load(Relaxed));
        slot.store(value, Relaxed);
    }

    /// Clears a tag that was got, and wakes one thread where any sleeps.
    fn clear(&self, tag: u32) {
        let mut free = self.lock();
        free.tags.push(tag);
        let waiting = free.waiting;
        drop(free);
        if waiting > 0 {
            self.cleared.notify_one();
        }
    }
}

pub fn run(options: &Options) {
    for &threads in &options.threads {
        let depth = options.depth.unwrap_or(threads / 2).max(1);
        let list = List::open(depth);
        let case = Case {
            contender: "mutex list",
            workload: "queue waiters",
            name: format!("depth {depth}"),
            threads,
        };
        case.measure(|_| pairs(&list, options.rounds));
    }
}

/// Gets a tag, touches its slot and clears it, so many times.
#[inline(never)]
fn pairs(list: &List, rounds: u64) -> u64 {
    for round in 0..rounds {
        let tag = list.get();
        list.touch(tag, round);
        list.clear(tag);
    }
    rounds
}
