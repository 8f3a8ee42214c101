//! The crate of rust/tags: tags are guards, which go back where they are dropped, and programs have slots of their own.
use crate::loops::{Slots, Tags, BATCH};
use std::marker::PhantomData;
use tags::{Hand, Options, Pool, Tag};

/// How many tags a hand keeps.
pub trait Keeps: Sync {
    const NAME: &'static str;
    const CACHE: u32;
}

pub struct Uncached;

impl Keeps for Uncached {
    const NAME: &'static str = "rust";
    const CACHE: u32 = 0;
}

pub struct Cached;

impl Keeps for Cached {
    const NAME: &'static str = "rust, cache";
    const CACHE: u32 = 8;
}

pub struct Rust<K> {
    pool: Pool,
    keeps: PhantomData<K>,
}

/// A guard of a free tag, for which it tries until there is one, after a touch of its slot. The loops have it in line, as
/// those in C do.
#[inline(always)]
fn win<'a>(hand: &'a Hand, slots: &Slots, value: u64) -> Tag<'a> {
    loop {
        if let Ok(Some(tag)) = hand.get() {
            slots.touch(tag.number(), value);
            return tag;
        }
    }
}

impl<K: Keeps> Tags for Rust<K> {
    const NAME: &'static str = K::NAME;
    type User = Hand;

    /// Each hand starts in its own part.
    fn open(depth: u32, threads: u32, _stride: u32) -> Rust<K> {
        let options = Options {
            cache: K::CACHE,
            ..Options::new(depth, threads)
        };
        let pool = Pool::open(&options).expect("there is memory");
        let keeps = PhantomData;
        Rust { pool, keeps }
    }

    fn enter(&self, _index: u32) -> Hand {
        self.pool.join().expect("there is a hand for each thread")
    }

    #[inline]
    fn get(&self, hand: &mut Hand) -> Option<u32> {
        hand.get().ok().flatten().map(Tag::into_number)
    }

    #[inline]
    fn clear(&self, hand: &mut Hand, tag: u32) {
        drop(hand.claim(tag).expect("the tag is held"));
    }

    #[inline]
    fn post(&self, hand: &mut Hand, tag: u32) {
        let _ = hand.claim(tag).expect("the tag is held").post();
    }

    #[inline]
    fn take(&self, hand: &mut Hand, tag: u32) {
        let _ = hand.take(tag).expect("the tag is posted").into_number();
    }

    /// The loops below use no numbers of batches.
    fn get_batch(&self, _: &mut Hand, _: &mut [u32; BATCH]) -> usize {
        unreachable!()
    }

    fn clear_batch(&self, _: &mut Hand, _: &[u32]) {
        unreachable!()
    }

    fn close(self) {
        let closed = self.pool.close();
        assert!(closed.is_ok(), "all hands are back");
    }

    #[inline(never)]
    fn pairs(&self, hand: &mut Hand, slots: &Slots, rounds: u64) -> u64 {
        for round in 0..rounds {
            drop(win(hand, slots, round));
        }
        rounds
    }

    #[inline(never)]
    fn ring(&self, hand: &mut Hand, slots: &Slots, hold: usize, rounds: u64) -> u64 {
        let mut held: Vec<Option<Tag>> = (0..hold).map(|_| Some(win(hand, slots, 0))).collect();
        let mut oldest = 0;
        for round in 0..rounds {
            drop(held[oldest].take());
            held[oldest] = Some(win(hand, slots, round));
            oldest = if oldest + 1 < hold { oldest + 1 } else { 0 };
        }
        rounds + hold as u64
    }

    #[inline(never)]
    fn batches(&self, hand: &mut Hand, slots: &Slots, rounds: u64) -> u64 {
        let mut won = 0;
        for round in 0..rounds / BATCH as u64 {
            if let Ok(Some(batch)) = hand.get_batch(BATCH as u32) {
                for tag in batch.numbers() {
                    slots.touch(tag, round);
                    won += 1;
                }
            }
        }
        won
    }
}
