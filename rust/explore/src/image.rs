//! A state of all memory of the coroutines, of which each step changes little: it is kept, compared with others by a sum, and
//! taken up again.

use crate::fiber;
use crate::memory::{chunks, Chunk, Extent, CHUNKS};
use std::hash::Hasher;

/// The memory as it was in the last state that is kept, and how it was in those before.
pub struct Image {
    chunks: Vec<Chunk>,
    sums: Vec<u64>,
    /// The sum of all sums.
    sum: u64,
    extent: Extent,
    /// The chunks that differ now, with their sums.
    changed: Vec<(usize, u64)>,
    /// What changed from state to state, as it was before.
    former: Vec<(usize, Chunk, u64)>,
}

/// Where an image was when a state was kept.
#[derive(Clone, Copy)]
pub struct Mark {
    /// The number of changes before.
    changes: usize,
    sum: u64,
    extent: Extent,
}

/// Adds a word to a sum.
fn mix(sum: u64, word: u64) -> u64 {
    (sum ^ word).wrapping_mul(0x9e37_79b9_7f4a_7c15).rotate_left(29)
}

/// A sum of 64 bits of a chunk, and 0 if all of it is 0.
fn sum(at: usize, chunk: &Chunk) -> u64 {
    let (mut even, mut odd, mut word) = (0, 0, 0);
    while word < chunk.len() {
        even = mix(even, chunk[word]);
        odd = mix(odd, chunk[word + 1]);
        word += 2;
    }
    mix(even, odd.rotate_left(32)).wrapping_mul(2 * at as u64 + 1)
}

/// A sum of numbers, by which states are known.
#[derive(Default)]
pub struct Sum(u64);

impl Hasher for Sum {
    fn write(&mut self, bytes: &[u8]) {
        bytes.iter().for_each(|it| self.0 = mix(self.0, u64::from(*it) + 1));
    }

    fn write_u64(&mut self, number: u64) {
        self.0 = mix(self.0, number);
    }

    fn write_usize(&mut self, number: usize) {
        self.write_u64(number as u64);
    }

    fn finish(&self) -> u64 {
        mix(self.0, 1)
    }
}

impl Image {
    /// Of memory of which nothing is used, as before the first coroutine starts.
    pub fn new() -> Image {
        let image = Image {
            chunks: vec![[0; 32]; CHUNKS],
            sums: vec![0; CHUNKS],
            sum: 0,
            extent: Extent::none(),
            changed: Vec::new(),
            former: Vec::new(),
        };
        image.go_on();
        image
    }

    fn now(at: usize) -> *mut Chunk {
        chunks().wrapping_add(at)
    }

    /// Looks at what has changed since the last state that is kept. Returns the sum of the memory, and how much is used.
    pub fn look(&mut self) -> (u64, Extent) {
        let extent = Extent::now(fiber::stacks());
        let mut all = self.sum;
        self.changed.clear();
        for at in self.extent.chunks_with(&extent) {
            // SAFETY: no coroutine runs.
            let now = unsafe { &mut *Image::now(at) };
            let is_left = !extent.uses(at);
            if is_left {
                // What becomes of it from now on is not looked at, so it is kept though it may be 0 already.
                *now = [0; 32];
            }
            if is_left || *now != self.chunks[at] {
                let sum = sum(at, now);
                all = all.wrapping_sub(self.sums[at]).wrapping_add(sum);
                self.changed.push((at, sum));
            }
        }
        (all, extent)
    }

    /// Keeps the state that `look` has found.
    pub fn keep(&mut self, sum: u64, extent: Extent) -> Mark {
        let mark = Mark {
            changes: self.former.len(),
            sum: self.sum,
            extent: self.extent,
        };
        for (at, sum) in self.changed.drain(..) {
            self.former.push((at, self.chunks[at], self.sums[at]));
            // SAFETY: no coroutine runs.
            self.chunks[at] = unsafe { *Image::now(at) };
            self.sums[at] = sum;
        }
        (self.sum, self.extent) = (sum, extent);
        mark
    }

    /// Makes the memory what it was in the last state that is kept, once `look` has found what is changed.
    pub fn take_up(&mut self) {
        for (at, _) in self.changed.drain(..) {
            // SAFETY: no coroutine runs.
            unsafe { *Image::now(at) = self.chunks[at] };
        }
        self.go_on();
    }

    /// Has the coroutines go on from the state that is kept.
    fn go_on(&self) {
        self.extent.set();
        fiber::set_stacks(self.extent.stacks);
    }

    /// Goes back from the last state that is kept to the one before it, of which `keep` returned the mark.
    pub fn go_back(&mut self, mark: Mark) {
        for (at, chunk, sum) in self.former.drain(mark.changes..) {
            self.chunks[at] = chunk;
            self.sums[at] = sum;
            // SAFETY: no coroutine runs.
            unsafe { *Image::now(at) = chunk };
        }
        (self.sum, self.extent) = (mark.sum, mark.extent);
        self.go_on();
    }
}
