// Made of crates/tag_search/src/plain_steps.rt, where the contracts are, by rust/generate.

//! The port to plain words. No other caller steps between the steps of a call.

use crate::proved::tag_core::Claim;
use crate::proved::tag_layout::Layout;
use crate::proved::tag_search::plain::PlainPort;
use crate::proved::tag_search::port::Port;

impl Port for PlainPort {
    #[inline]
    fn layout(&self) -> Layout {
        self.layout
    }

    #[inline]
    fn room(&self, _n: u32) -> bool {
        true
    }

    #[inline]
    fn look(&mut self, word: u32) -> u64 {
        self.word[word as usize]
    }

    #[inline]
    fn claim(&mut self, word: u32, mask: u64, _asked: u32) -> Claim {
        let at = word as usize;
        let found = self.word[at];
        self.word[at] = found | mask;
        let won = mask & !found;
        Claim { won, found }
    }

    #[inline]
    fn claim_one(&mut self, word: u32, place: u32) -> Result<(), u64> {
        let claim = self.claim(word, 1 << place, 1);
        if claim.won != 0 {
            Ok(())
        } else {
            Err(claim.found)
        }
    }

    #[inline]
    fn sweep(&mut self, word: u32) -> u64 {
        let at = word as usize;
        let mask = self.cleared[at];
        if mask == 0 {
            return 0;
        }
        self.cleared[at] = 0;
        self.word[at] &= !mask;
        mask
    }

    #[inline]
    fn sweep_keeping(&mut self, word: u32) -> Option<u32> {
        let at = word as usize;
        let mask = self.cleared[at];
        if mask == 0 {
            return None;
        }
        let place = mask.trailing_zeros();
        let rest = mask & !(1u64 << place);
        self.cleared[at] = 0;
        if rest != 0 {
            self.word[at] &= !rest;
        }
        Some(place)
    }
}
