// Made of crates/tagplay/src/stop.rt, where the contracts are, by rust/generate.

//! How the program ends.

use crate::base::rights::Eprint;
use crate::proved::tag_runs::RunFault;
use crate::proved::tag_script::Ending;
use std::process::ExitCode;

/// Why the program ended without a completed run.
#[derive(Debug, PartialEq, Eq)]
pub(crate) enum Stop {
    /// The command line asked for help or the version (status 0), or was not accepted (2).
    CommandLine(u8),
    /// The run itself failed.
    Run(RunFault),
}

/// Returns the exit status: 0 done, help or the version; 1 refused; 2 a usage error; 3 a fault of the run.
pub(crate) fn status(outcome: &Result<Ending, Stop>) -> u8 {
    match outcome {
        Ok(Ending::Done) => 0,
        Ok(Ending::Refused(_)) => 1,
        Err(Stop::CommandLine(status)) => *status,
        Err(Stop::Run(_)) => 3,
    }
}

/// Ends the program with the status of this outcome. Standard error says what is wrong with the input, or what went
/// wrong in the run.
pub(crate) fn end<P: Eprint>(rt: &P, outcome: &Result<Ending, Stop>) -> ExitCode {
    match outcome {
        Ok(Ending::Refused(refusal)) => {
            let _ = rt.eprintln(format_args!("{refusal}"));
        }
        Err(Stop::Run(fault)) => {
            let _ = rt.eprintln(format_args!("{fault}"));
        }
        Ok(Ending::Done) | Err(Stop::CommandLine(_)) => {}
    }
    ExitCode::from(status(outcome))
}
