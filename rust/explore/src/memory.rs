//! The memory of the coroutines: each has a heap and a stack of its own. What is freed is not used again, so no two places
//! have one address, and all that the coroutines can change lies here.

use std::alloc::{GlobalAlloc, Layout, System};
use std::cell::UnsafeCell;
use std::sync::atomic::{AtomicUsize, Ordering::Relaxed};

/// The most coroutines: the play itself, four threads, and a clock.
pub const MOST: usize = 6;

/// Bytes of a heap, and of the stack behind it.
const HEAP: usize = 1 << 15;
const STACK: usize = 1 << 15;
const ROOM: usize = HEAP + STACK;

/// How deep a call goes between two switches, in most cases. So much below a stack is cleared: what former calls have left
/// there would make states differ that are equal.
const DEPTH: usize = 1 << 12;

/// A piece of memory that is kept and compared as a whole.
pub type Chunk = [u64; 32];

const CHUNK: usize = size_of::<Chunk>();

/// The number of all chunks.
pub const CHUNKS: usize = MOST * ROOM / CHUNK;

#[repr(align(4096))]
struct Arena(UnsafeCell<[Chunk; CHUNKS]>);

// SAFETY: the explorer and its coroutines are one thread.
unsafe impl Sync for Arena {}

static ARENA: Arena = Arena(UnsafeCell::new([[0; 32]; CHUNKS]));

/// The bytes of each heap that are used.
static USED: [AtomicUsize; MOST] = [const { AtomicUsize::new(0) }; MOST];

/// The coroutine that runs, or `MOST` for the explorer.
static RUNNING: AtomicUsize = AtomicUsize::new(MOST);

pub fn running() -> usize {
    RUNNING.load(Relaxed)
}

pub fn run_as(coroutine: usize) {
    RUNNING.store(coroutine, Relaxed);
}

/// The memory of all coroutines, which only the explorer uses so, while none of them runs.
pub fn chunks() -> *mut Chunk {
    ARENA.0.get().cast()
}

fn heap(coroutine: usize) -> *mut u8 {
    chunks().cast::<u8>().wrapping_add(coroutine * ROOM)
}

/// The end of a stack, from which it grows down.
pub fn top(coroutine: usize) -> *mut u8 {
    heap(coroutine).wrapping_add(ROOM)
}

/// Clears what the stack of a coroutine had below this address.
pub fn clear_below(coroutine: usize, at: usize) {
    let begin = at - DEPTH;
    assert!(begin >= heap(coroutine) as usize + HEAP, "a stack is large enough");
    // SAFETY: this is the part of the stack that is not used.
    unsafe { (begin as *mut u8).write_bytes(0, DEPTH) };
}

/// How much of its memory each coroutine uses.
#[derive(Clone, Copy, Default, Hash)]
pub struct Extent {
    /// The bytes of the heaps.
    heaps: [usize; MOST],
    /// The lowest addresses of the stacks.
    pub stacks: [usize; MOST],
}

impl Extent {
    /// Before any coroutine starts: nothing is used.
    pub fn none() -> Extent {
        Extent {
            heaps: [0; MOST],
            stacks: std::array::from_fn(|it| top(it) as usize),
        }
    }

    /// What is used now, with these stacks.
    pub fn now(stacks: [usize; MOST]) -> Extent {
        let heaps = std::array::from_fn(|it| USED[it].load(Relaxed));
        Extent { heaps, stacks }
    }

    /// Has the heaps be used so.
    pub fn set(&self) {
        for (used, set) in USED.iter().zip(self.heaps) {
            used.store(set, Relaxed);
        }
    }

    /// The chunks that are used in one or the other.
    pub fn chunks_with(&self, other: &Extent) -> impl Iterator<Item = usize> {
        let parts: [_; 2 * MOST] = std::array::from_fn(|part| {
            let at = part / 2;
            let heap = at * ROOM..at * ROOM + self.heaps[at].max(other.heaps[at]);
            let lowest = self.stacks[at].min(other.stacks[at]) - chunks() as usize;
            let bytes = if part % 2 == 0 { heap } else { lowest..(at + 1) * ROOM };
            bytes.start / CHUNK..bytes.end.div_ceil(CHUNK)
        });
        parts.into_iter().flatten()
    }

    /// Whether a chunk is used.
    pub fn uses(&self, at: usize) -> bool {
        let (coroutine, begin) = (at * CHUNK / ROOM, at * CHUNK % ROOM);
        let end = chunks().wrapping_add(at + 1) as usize;
        begin < self.heaps[coroutine] || end > self.stacks[coroutine]
    }
}

/// Allocates for a coroutine in its heap, and for the explorer elsewhere.
struct Heaps;

#[global_allocator]
static HEAPS: Heaps = Heaps;

// SAFETY: each piece of a heap is given out once, as its `used` goes up by it.
unsafe impl GlobalAlloc for Heaps {
    unsafe fn alloc(&self, layout: Layout) -> *mut u8 {
        let coroutine = running();
        if coroutine == MOST {
            // SAFETY: as the caller promises.
            return unsafe { System.alloc(layout) };
        }
        let begin = USED[coroutine].load(Relaxed).next_multiple_of(layout.align().max(16));
        let end = begin + layout.size().next_multiple_of(16);
        if end > HEAP || layout.align() > 4096 {
            return std::ptr::null_mut();
        }
        USED[coroutine].store(end, Relaxed);
        heap(coroutine).wrapping_add(begin)
    }

    unsafe fn dealloc(&self, at: *mut u8, layout: Layout) {
        if (heap(0)..heap(MOST)).contains(&at) {
            // So that states are equal which differ in what was freed alone.
            // SAFETY: as the caller promises.
            unsafe { at.write_bytes(0, layout.size()) };
        } else if running() == MOST {
            // SAFETY: as the caller promises.
            unsafe { System.dealloc(at, layout) };
        }
        // What the explorer has allocated and a coroutine frees stays: an earlier state is taken up that still has it.
    }
}
