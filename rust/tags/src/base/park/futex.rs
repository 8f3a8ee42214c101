//! Sleep by Linux's futex.

use crate::base::word::Word;
use core::ffi::{c_int, c_long};

const FUTEX: c_long = if cfg!(target_arch = "x86_64") { 202 } else { 98 };
const WAIT_PRIVATE: c_int = 128;
const WAKE_PRIVATE: c_int = 129;

extern "C" {
    fn syscall(number: c_long, ...) -> c_long;
}

/// Sleeps while the low half of the word is `expected`. It may return for no reason.
pub fn park(word: &Word, expected: u32) {
    // SAFETY: the kernel reads four bytes of the word, which outlives the call, and no time.
    unsafe { syscall(FUTEX, low_half(word), WAIT_PRIVATE, expected, core::ptr::null::<u8>()) };
}

/// Wakes up to `count` of those who sleep on the word.
pub fn wake(word: &Word, count: u32) {
    let count = c_int::try_from(count).unwrap_or(c_int::MAX);
    // SAFETY: to the kernel the address is a name here: it reads nothing.
    unsafe { syscall(FUTEX, low_half(word), WAKE_PRIVATE, count) };
}

fn low_half(word: &Word) -> *const u32 {
    let halves: *const u32 = word.as_ptr().cast();
    halves.wrapping_add(usize::from(cfg!(target_endian = "big")))
}
