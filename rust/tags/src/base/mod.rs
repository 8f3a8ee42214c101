//! What the proved modules stand on, written by hand: tables of atomic words and slots, vectors that refuse to grow, sleep
//! and output. It is trusted, not proved, and has all `unsafe` code of the proved part.
//!
//! Indexes of vectors are checked in every build, though proved: without that a pair would take some eight instructions
//! fewer.
//!
//! Where it ends the program, Rattle has ruled the cause out: an index out of range, which a debug build checks.

pub mod digits;
#[cfg(all(
    feature = "std",
    target_os = "linux",
    any(target_arch = "x86_64", target_arch = "aarch64"),
    not(tags_park_threads)
))]
pub mod futex;
pub mod io;
pub mod lock;
pub mod park;
pub mod sleep;
pub mod table;
pub mod vec;
pub mod word;

#[cfg(test)]
mod tests;
