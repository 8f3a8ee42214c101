//! The processor time that this process has used, which std has no call for.
use std::ffi::{c_int, c_long};
use std::time::Duration;

/// A time as x86-64 Linux has it.
#[repr(C)]
struct Timespec {
    seconds: c_long,
    nanoseconds: c_long,
}

const CLOCK_PROCESS_CPUTIME_ID: c_int = 2;

unsafe extern "C" {
    fn clock_gettime(clock: c_int, time: *mut Timespec) -> c_int;
}

/// Of all threads, those that have ended too.
pub fn processor_time() -> Duration {
    let mut time = Timespec {
        seconds: 0,
        nanoseconds: 0,
    };
    // SAFETY: the call writes one time where it is told to, and nothing else.
    let status = unsafe { clock_gettime(CLOCK_PROCESS_CPUTIME_ID, &mut time) };
    assert_eq!(status, 0, "there is no clock for processor time");
    Duration::new(time.seconds as u64, time.nanoseconds as u32)
}
