//! `tagplay`: it carries out scripts, lists of events and logs of I/O on a proved tag allocator.

extern crate alloc;

#[allow(
    dead_code,
    unused_imports,
    reason = "the program needs a part of what the library does"
)]
mod base;
#[allow(
    dead_code,
    unused_imports,
    reason = "the program makes a part of the library's calls"
)]
#[allow(
    clippy::complexity,
    clippy::perf,
    clippy::style,
    reason = "Rattle decides how its source is written"
)]
mod proved;

fn main() -> std::process::ExitCode {
    proved::tagplay::main()
}
