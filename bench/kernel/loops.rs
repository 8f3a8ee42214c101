//! The workloads, over any way to keep free tags: the loops of `tag_bench`.
use std::sync::atomic::{AtomicU64, Ordering::Relaxed, Ordering::SeqCst};
use std::thread;

/// Tags that each thread holds in `ring`.
const HELD: u32 = 32;

/// Tags of a batch.
pub const BATCH: usize = 8;

/// Tags on their way from one thread to the next, at most.
const ROOM: usize = 64;

/// Looks at a cell before a thread lets others run.
const LOOKS: u32 = 1_000;

/// Free tags that threads share.
pub trait Tags: Sync {
    const NAME: &'static str;

    /// What each thread has of its own.
    type User;

    /// All tags free. The hints of two threads that follow each other are so many tags apart, where there are hints.
    fn open(depth: u32, threads: u32, stride: u32) -> Self;

    /// The calling thread is this user from now on.
    fn enter(&self, index: u32) -> Self::User;

    fn get(&self, user: &mut Self::User) -> Option<u32>;

    /// Exchanges the number beside a tag that this user has. Most know no slots, so it is one of these.
    #[inline]
    fn touch(&self, _user: &mut Self::User, slots: &Slots, tag: u32, value: u64) {
        slots.touch(tag, value);
    }

    /// Clears a tag that this user got, or one that another user got and handed on.
    fn clear(&self, user: &mut Self::User, tag: u32);

    /// What handing a tag on takes beside sending its number.
    #[inline]
    fn post(&self, _user: &mut Self::User, _tag: u32) {}

    /// What taking a tag over takes beside its number.
    #[inline]
    fn take(&self, _user: &mut Self::User, _tag: u32) {}

    /// Some tags of up to a batch.
    fn get_batch(&self, user: &mut Self::User, tags: &mut [u32; BATCH]) -> usize;

    /// Clears tags of one batch.
    fn clear_batch(&self, user: &mut Self::User, tags: &[u32]);

    /// No tag is taken any more.
    fn close(self);

    /// The loops of one thread alone. Who is C has them in C (loops.h), as a program in C would.
    fn pairs(&self, user: &mut Self::User, slots: &Slots, rounds: u64) -> u64
    where
        Self: Sized,
    {
        pairs(self, user, slots, rounds)
    }

    fn ring(&self, user: &mut Self::User, slots: &Slots, hold: usize, rounds: u64) -> u64
    where
        Self: Sized,
    {
        ring(self, user, slots, hold, rounds)
    }

    fn batches(&self, user: &mut Self::User, slots: &Slots, rounds: u64) -> u64
    where
        Self: Sized,
    {
        batches(self, user, slots, rounds)
    }
}

/// How tags are used.
#[derive(Clone, Copy, PartialEq, Eq)]
pub enum Workload {
    Pair,
    Ring,
    Full,
    Handoff,
    Batch,
}

impl Workload {
    /// The workload of this name.
    pub fn named(name: &str) -> Option<Workload> {
        use Workload::{Batch, Full, Handoff, Pair, Ring};
        [Pair, Ring, Full, Handoff, Batch]
            .into_iter()
            .find(|workload| workload.name() == name)
    }

    pub fn name(self) -> &'static str {
        match self {
            Workload::Pair => "pair",
            Workload::Ring => "ring",
            Workload::Full => "full",
            Workload::Handoff => "handoff",
            Workload::Batch => "batch",
        }
    }

    /// Whether so many threads can do it on so many tags.
    pub fn can_run(self, depth: u32, threads: u32) -> bool {
        depth >= threads
            && (self != Workload::Handoff || threads % 2 == 0)
            && (self != Workload::Batch || depth >= 32)
    }

    /// Tags that each thread holds.
    pub fn held(self, depth: u32, threads: u32) -> usize {
        let share = depth / threads;
        match self {
            Workload::Ring => share.min(HELD) as usize,
            _ => share as usize,
        }
    }

    /// The most tags that a thread has at once, sent ones among them.
    pub fn most_held(self, depth: u32, threads: u32) -> u32 {
        match self {
            Workload::Pair => 1,
            Workload::Batch => BATCH as u32,
            Workload::Handoff => ROOM as u32 + 2,
            Workload::Ring | Workload::Full => self.held(depth, threads) as u32,
        }
    }
}

/// A number beside each tag, which its holder exchanges.
pub struct Slots(Vec<AtomicU64>);

impl Slots {
    pub fn new(depth: u32) -> Slots {
        Slots((0..depth).map(|_| AtomicU64::new(0)).collect())
    }

    /// The first number, for loops in C.
    pub fn start(&self) -> *const AtomicU64 {
        self.0.as_ptr()
    }

    /// A load and a store, as of plain memory.
    #[inline]
    pub fn touch(&self, tag: u32, value: u64) {
        let slot = &self.0[tag as usize];
        std::hint::black_box(slot.load(Relaxed));
        slot.store(value, Relaxed);
    }
}

/// A way for tags from one thread to another: cells that are used in turn, each with a tag's number and 1, or 0.
pub struct Way([AtomicU64; ROOM]);

impl Default for Way {
    fn default() -> Way {
        Way([const { AtomicU64::new(0) }; ROOM])
    }
}

impl Way {
    /// Waits until the cell is full, or until it is empty, and writes it. What it had.
    fn exchange(&self, round: u64, full: bool, new: u64) -> u64 {
        let cell = &self.0[round as usize % ROOM];
        loop {
            for _ in 0..LOOKS {
                let found = cell.load(SeqCst);
                if (found != 0) == full {
                    cell.store(new, SeqCst);
                    return found;
                }
            }
            thread::yield_now();
        }
    }
}

/// Gets a tag, trying until there is one, and touches its slot.
#[inline]
fn win<T: Tags>(tags: &T, user: &mut T::User, slots: &Slots, value: u64) -> u32 {
    loop {
        if let Some(tag) = tags.get(user) {
            tags.touch(user, slots, tag, value);
            return tag;
        }
    }
}

/// Gets a tag, touches its slot and clears it, so many times. Answers how many tags were won, as the next two do.
#[inline(never)]
fn pairs<T: Tags>(tags: &T, user: &mut T::User, slots: &Slots, rounds: u64) -> u64 {
    for round in 0..rounds {
        let tag = win(tags, user, slots, round);
        tags.clear(user, tag);
    }
    rounds
}

/// Holds so many tags, and so many times clears the oldest and gets another. In the end it clears all.
#[inline(never)]
fn ring<T: Tags>(tags: &T, user: &mut T::User, slots: &Slots, hold: usize, rounds: u64) -> u64 {
    let mut held: Vec<u32> = (0..hold).map(|_| win(tags, user, slots, 0)).collect();
    let mut oldest = 0;
    for round in 0..rounds {
        tags.clear(user, held[oldest]);
        held[oldest] = win(tags, user, slots, round);
        oldest = if oldest + 1 < hold { oldest + 1 } else { 0 };
    }
    for tag in held {
        tags.clear(user, tag);
    }
    rounds + hold as u64
}

/// Gets up to a batch of tags, touches the slot of each and clears them together.
#[inline(never)]
fn batches<T: Tags>(tags: &T, user: &mut T::User, slots: &Slots, rounds: u64) -> u64 {
    let mut batch = [0; BATCH];
    let mut won = 0;
    for round in 0..rounds / BATCH as u64 {
        let count = tags.get_batch(user, &mut batch);
        for &tag in &batch[..count] {
            tags.touch(user, slots, tag, round);
        }
        tags.clear_batch(user, &batch[..count]);
        won += count as u64;
    }
    won
}

/// Gets tags and sends each on.
#[inline(never)]
pub fn send<T: Tags>(tags: &T, user: &mut T::User, slots: &Slots, way: &Way, rounds: u64) -> u64 {
    for round in 0..rounds {
        let tag = win(tags, user, slots, round);
        tags.post(user, tag);
        way.exchange(round, false, u64::from(tag) + 1);
    }
    rounds
}

/// Takes the tags that come, touches the slot of each and clears it. Answers how many came.
#[inline(never)]
pub fn receive<T: Tags>(
    tags: &T,
    user: &mut T::User,
    slots: &Slots,
    way: &Way,
    rounds: u64,
) -> u64 {
    for round in 0..rounds {
        let tag = way.exchange(round, true, 0) as u32 - 1;
        tags.take(user, tag);
        tags.touch(user, slots, tag, round);
        tags.clear(user, tag);
    }
    rounds
}
