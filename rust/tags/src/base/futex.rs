//! Sleep on a word of 32 bits, by Linux's futex.

use core::ffi::{c_int, c_long};
use core::ptr::{null, null_mut};
use core::sync::atomic::AtomicU32;
use core::time::Duration;

// On memory that no other process has.
const WAIT: c_int = 128;
const WAKE: c_int = 1 | 128;

#[cfg(target_arch = "x86_64")]
const FUTEX: c_long = 202;
#[cfg(target_arch = "aarch64")]
const FUTEX: c_long = 98;

/// A `struct timespec` of a system with 64 bits.
#[repr(C)]
struct Timespec {
    seconds: i64,
    nanoseconds: i64,
}

unsafe extern "C" {
    fn syscall(number: c_long, ...) -> c_long;
}

/// Sleeps while the word is `expected`, until a wake or until the time is up. It may return for no reason.
pub fn sleep(word: &AtomicU32, expected: u32, time: Option<Duration>) {
    let time = time.map(|time| Timespec {
        seconds: time.as_secs().try_into().unwrap_or(i64::MAX),
        nanoseconds: time.subsec_nanos().into(),
    });
    let limit = time.as_ref().map_or(null(), |it| it as *const Timespec);
    // SAFETY: the word and the limit outlive the call, which reads both and writes nothing.
    unsafe { syscall(FUTEX, word.as_ptr(), WAIT, expected, limit, null_mut::<u32>(), 0u32) };
}

/// Wakes all who sleep on the word.
pub fn wake(word: &AtomicU32) {
    // SAFETY: the system takes the address alone.
    unsafe {
        syscall(
            FUTEX,
            word.as_ptr(),
            WAKE,
            c_int::MAX,
            null::<Timespec>(),
            null_mut::<u32>(),
            0u32,
        )
    };
}
