// Made of crates/tagplay/src/command_line.rt, where the contracts are, by rust/generate.

//! Parses a command line and runs the subcommand that it names.

use crate::base::command_line::{Error, ErrorKind};
use crate::base::io::Write;
use crate::base::rights::{AllocGlobal, AsStr, Env, Eprint, Print};
use crate::base::sleep::Wait;
use crate::base::thread::Threads;
use crate::base::vec::Vec;
use crate::base::{env, io};
use crate::proved::tag_runs::{RunFault, Source};
use crate::proved::tag_script::Ending;
use crate::proved::tagplay::options;
use crate::proved::tagplay::stop::{end, Stop};
use crate::proved::tagplay::subcommand::Subcommand;
use std::process::ExitCode;

/// Returns the arguments of the process, starting with the program's name. One that is not UTF-8 is a mistake in the
/// command line, which is reported here.
pub(crate) fn words<P: AllocGlobal + Env + Eprint>(rt: &P) -> Result<Vec<String>, Stop> {
    match env::args(rt) {
        Ok(args) => args.collect(rt.alloc()).map_err(|_| Stop::Run(RunFault::Memory)),
        Err(error) if error.kind() == io::ErrorKind::InvalidData => {
            let _ = rt.eprintln(format_args!("error: an argument is not valid UTF-8"));
            Err(Stop::CommandLine(2))
        }
        Err(_) => Err(Stop::Run(RunFault::Memory)),
    }
}

/// Runs the program on its words, starting with its name, and returns its exit status.
pub(crate) fn answer<P: AllocGlobal + Print + Eprint + Threads + Wait + Sync, S: AsStr, R: Source, W: Write>(
    rt: &P,
    words: &[S],
    reader: &mut R,
    writer: &mut W,
) -> ExitCode {
    let outcome = run(rt, words, reader, writer);
    end(rt, &outcome)
}

/// Runs the subcommand that `words` name. Help goes to standard output, a usage error to standard error.
pub(crate) fn run<P: AllocGlobal + Print + Eprint + Threads + Wait + Sync, S: AsStr, R: Source, W: Write>(
    rt: &P,
    words: &[S],
    reader: &mut R,
    writer: &mut W,
) -> Result<Ending, Stop> {
    let subcommand = chosen(rt, words)?;
    match subcommand.run(rt, rt.alloc(), reader, writer) {
        Ok(ending) => Ok(ending),
        Err(fault) => Err(Stop::Run(fault)),
    }
}

/// Parses `words`. Help, the version and usage errors are printed here, and end in `Stop::CommandLine`.
pub(crate) fn chosen<P: AllocGlobal + Print + Eprint, S: AsStr>(rt: &P, words: &[S]) -> Result<Subcommand, Stop> {
    let Ok(command) = options::command(rt.alloc()) else {
        return Err(Stop::Run(RunFault::Memory));
    };
    match command.try_get_matches_from(words) {
        Ok(matches) => match Subcommand::named(&matches) {
            Some(subcommand) => Ok(subcommand),
            // words without a fault enter one of the three
            None => unreachable!(),
        },
        Err(error) => Err(shown(rt, &error)),
    }
}

/// Prints help, the version or a usage error, and returns how the program stops for it. Want of memory is not printed.
fn shown<P: Print + Eprint>(rt: &P, error: &Error) -> Stop {
    if error.kind() == ErrorKind::OutOfMemory {
        return Stop::Run(RunFault::Memory);
    }
    let _ = error.print(rt);
    Stop::CommandLine(error.exit_code() as u8)
}
