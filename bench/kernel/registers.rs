//! Arithmetic in registers. Threads that do nothing else share no memory, so what slows them down while others run is the
//! machine.
use crate::loops::{Slots, Tags, BATCH};
use std::arch::asm;

/// Steps of arithmetic in a get.
const STEPS: u64 = 32;

/// Arithmetic, and no tags.
pub struct Registers;

/// What one thread computes.
pub struct Sums {
    product: u64,
    sum: u64,
}

impl Tags for Registers {
    const NAME: &'static str = "registers";
    type User = Sums;

    fn open(_depth: u32, _threads: u32, _stride: u32) -> Registers {
        Registers
    }

    fn enter(&self, _index: u32) -> Sums {
        Sums { product: 1, sum: 1 }
    }

    /// Two chains of steps that don't wait for each other.
    #[inline]
    fn get(&self, sums: &mut Sums) -> Option<u32> {
        let Sums { mut product, mut sum } = *sums;
        for step in 0..STEPS {
            product = product.wrapping_mul(3) ^ step;
            sum = (sum ^ sum >> 7).wrapping_add(step);
            // SAFETY: no instruction. The compiler has to have both numbers in registers here, and can't tell what they become.
            unsafe { asm!("/* {0} {1} */", inout(reg) product, inout(reg) sum, options(nomem, nostack, preserves_flags)) };
        }
        *sums = Sums { product, sum };
        Some(0)
    }

    #[inline]
    fn touch(&self, _sums: &mut Sums, _slots: &Slots, _tag: u32, _value: u64) {}

    #[inline]
    fn clear(&self, _sums: &mut Sums, _tag: u32) {}

    fn get_batch(&self, _sums: &mut Sums, _tags: &mut [u32; BATCH]) -> usize {
        0
    }

    fn clear_batch(&self, _sums: &mut Sums, _tags: &[u32]) {}

    fn close(self) {}
}
