// Made of crates/tag_pool/src/opens/placing.rt, where the contracts are, by rust/generate.

//! Where a hand's gets start.

use crate::base::vec::{Global, Vec};
use crate::proved::tag_pool::fault::OpenFault;
use crate::proved::tag_pool::hand::Hand;
use crate::proved::tag_pool::options::Options;
use crate::proved::tag_pool::pool::Pool;

impl<R: Copy> Pool<R> {
    /// Opens a pool as `open` does, refuses what `open` refuses, and places the hints of each hand (see `place`).
    #[inline]
    pub fn open_placed(alloc: Global, options: Options, fill: R) -> Result<(Pool<R>, Vec<Hand<R>>), OpenFault> {
        let (pool, mut hands) = Pool::open(alloc, options, fill)?;
        place_all(&pool, hands.as_mut_slice());
        Ok((pool, hands))
    }

    /// Moves the hand's hint in each set to the first tag of its own part of the set: its number times the tags of the set,
    /// divided by the number of hands, rounded down. All hints start at the set's first tag, where threads would contend;
    /// placed hands meet where their parts share a word, since a get without round robin starts with the first tag of the
    /// hint's word, and once their parts are full: a get that finds no tag at all moves the hint to the set's first tag.
    /// This makes no step.
    #[inline]
    pub fn place(&self, hand: &mut Hand<R>) {
        hand.reserved.place(&self.reserved);
        hand.ordinary.place(&self.ordinary);
    }
}

/// Places the hints of each hand.
#[inline]
fn place_all<R: Copy>(pool: &Pool<R>, hands: &mut [Hand<R>]) {
    for hand in hands.iter_mut() {
        pool.place(hand);
    }
}
