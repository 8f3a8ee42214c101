//! Sleep on the low half of a word, and how sleepers are woken: by a futex, or by what Rust's library has. With
//! `--cfg tags_park_threads` a program does under Linux what it does elsewhere.

#[cfg(feature = "std")]
#[cfg_attr(
    all(
        target_os = "linux",
        any(target_arch = "x86_64", target_arch = "aarch64"),
        not(tags_park_threads)
    ),
    path = "park/futex.rs"
)]
#[cfg_attr(
    any(
        not(target_os = "linux"),
        not(any(target_arch = "x86_64", target_arch = "aarch64")),
        tags_park_threads
    ),
    path = "park/threads.rs"
)]
mod chosen;

/// Without Rust's library. The interface of `tags` sleeps by what its pools are opened with, and not so.
#[cfg(not(feature = "std"))]
mod chosen {
    use crate::base::word::Word;

    pub fn park(_: &Word, _: u32) {
        core::hint::spin_loop();
    }

    pub fn wake(_: &Word, _: u32) {}
}

pub use chosen::{park, wake};
