//! Calls of the C library that Rust's standard library has no form of.
use std::ffi::{c_char, c_int, c_uint};
use std::fs::File;
use std::io;
use std::os::fd::{AsRawFd, FromRawFd};
use std::ptr::null_mut;

const INTERRUPT: c_int = 2;
pub const USER: c_int = 10;
const TERMINATE: c_int = 15;
const BLOCK: c_int = 0;

const CLOSE_ON_EXEC: c_uint = 1;
const KEEP_SIZE: c_int = 1;
const PUNCH_HOLE: c_int = 2;
const ZERO_RANGE: c_int = 16;

#[repr(C)]
struct SignalSet([u64; 16]);

extern "C" {
    fn memfd_create(name: *const c_char, flags: c_uint) -> c_int;
    fn fallocate(fd: c_int, mode: c_int, offset: i64, length: i64) -> c_int;
    fn sigemptyset(set: *mut SignalSet) -> c_int;
    fn sigaddset(set: *mut SignalSet, signal: c_int) -> c_int;
    fn pthread_sigmask(how: c_int, set: *const SignalSet, former: *mut SignalSet) -> c_int;
    fn sigwait(set: *const SignalSet, signal: *mut c_int) -> c_int;
}

/// The signals that the server waits for.
pub struct Signals(SignalSet);

impl Signals {
    pub fn block() -> Signals {
        let mut set = SignalSet([0; 16]);
        // SAFETY: the set is as large as the C library's, and nothing else uses it.
        unsafe {
            sigemptyset(&mut set);
            for signal in [INTERRUPT, USER, TERMINATE] {
                sigaddset(&mut set, signal);
            }
            pthread_sigmask(BLOCK, &set, null_mut());
        }
        Signals(set)
    }

    pub fn wait(&self) -> c_int {
        let mut signal = 0;
        // SAFETY: both pointers are to objects of their types.
        unsafe { sigwait(&self.0, &mut signal) };
        signal
    }
}

/// Returns memory in the form of a file.
pub fn memory() -> io::Result<File> {
    // SAFETY: the name ends with a zero, and the descriptor is new.
    unsafe {
        match memfd_create(c"memory".as_ptr(), CLOSE_ON_EXEC) {
            -1 => Err(io::Error::last_os_error()),
            fd => Ok(File::from_raw_fd(fd)),
        }
    }
}

/// Has the file system make a range one of zeros, with a hole or without one. Returns whether it did.
pub fn make_zeroes(file: &File, offset: u64, length: u64, has_hole: bool) -> bool {
    let mode = if has_hole { PUNCH_HOLE } else { ZERO_RANGE };
    // SAFETY: no pointer is passed.
    unsafe { fallocate(file.as_raw_fd(), mode | KEEP_SIZE, offset as i64, length as i64) == 0 }
}
