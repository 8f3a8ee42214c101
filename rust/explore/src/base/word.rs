//! Atomic words, before each access of which the explorer may go on with another thread.

use crate::stage::Access;
use crate::steps::step;
use std::sync::atomic::{self, Ordering};

macro_rules! word {
    ($name:ident $of:ident $value:ty) => {
        #[derive(Default)]
        pub struct $name(atomic::$of);

        impl $name {
            pub const fn new(value: $value) -> $name {
                $name(atomic::$of::new(value))
            }

            /// By what the explorer knows the word.
            pub fn address(&self) -> usize {
                self.0.as_ptr() as usize
            }

            /// The value, which is no step.
            pub fn peek(&self) -> $value {
                self.0.load(Ordering::SeqCst)
            }

            pub fn load(&self, order: Ordering) -> $value {
                step(self.address(), Access::Word);
                self.0.load(order)
            }

            pub fn store(&self, value: $value, order: Ordering) {
                step(self.address(), Access::Word);
                self.0.store(value, order);
            }

            pub fn compare_exchange(
                &self,
                old: $value,
                new: $value,
                won: Ordering,
                lost: Ordering,
            ) -> Result<$value, $value> {
                step(self.address(), Access::Word);
                self.0.compare_exchange(old, new, won, lost)
            }

            pub fn fetch_update(
                &self,
                won: Ordering,
                lost: Ordering,
                change: impl FnMut($value) -> Option<$value>,
            ) -> Result<$value, $value> {
                step(self.address(), Access::Word);
                self.0.fetch_update(won, lost, change)
            }

            word!(writes $value: swap fetch_add fetch_sub fetch_and fetch_or);
        }
    };
    (writes $value:ty: $($name:ident)*) => {$(
        pub fn $name(&self, value: $value, order: Ordering) -> $value {
            step(self.address(), Access::Word);
            self.0.$name(value, order)
        }
    )*};
}

word!(Word AtomicU64 u64);
word!(AtomicU32 AtomicU32 u32);

/// A thread looks once whether a lock is free before it sleeps: more looks find nothing else.
pub const LOOKS: u32 = 1;

/// A slot, or another value that has one user at a time, is about to be used: a step of its own, so that two users are seen.
pub fn touch<T>(slot: *mut T) {
    step(slot as usize, Access::Slot);
}
