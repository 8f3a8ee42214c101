//! What the library is compared with: the same steps and rules in plain Rust, with no record of who holds what, and other
//! ways to keep free tags. `main WORKLOAD [--threads N] [--depth N] [--rounds N]` prints a line of JSON a case.
mod clock;
mod frame;
mod map;
mod plain;
mod search;
mod shared;
mod steps;
mod waiters;
mod wakes;

use frame::Options;
use std::process::ExitCode;

fn main() -> ExitCode {
    let mut words = std::env::args().skip(1);
    let workload = words.next().unwrap_or_default();
    let Some(options) = Options::read(words) else {
        eprintln!("an option is not known, or has no number above 0");
        return ExitCode::from(2);
    };
    match workload.as_str() {
        "map" => map::run(&options),
        "plain" => plain::run(&options),
        "shared" => shared::run(&options),
        "waiters" => waiters::run(&options),
        "wakes" => wakes::run(&options),
        _ => {
            eprintln!("the workloads are map, plain, shared, waiters and wakes");
            return ExitCode::from(2);
        }
    }
    ExitCode::SUCCESS
}
