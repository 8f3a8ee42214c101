// Made of crates/tagplay/src/main.rt, where the contracts are, by rust/generate.

//! The program: it answers scripts, lists of events and I/O logs.

use crate::base::io;
use crate::base::rights::HostRuntime;
use command_line::{answer, words};
use std::process::ExitCode;
use stop::end;

mod command_line;
mod options;
mod stop;
mod subcommand;

pub use crate::proved::tag_runs::{run_check, run_play, run_script, PlayOptions, RunFault, Watched};

/// Runs the program.
pub fn main() -> ExitCode {
    let rt = HostRuntime;
    match words(&rt) {
        Ok(words) => answer(
            &rt,
            words.as_slice(),
            &mut Watched::new(rt.reader()),
            &mut io::writer(&rt),
        ),
        Err(stop) => end(&rt, &Err(stop)),
    }
}
