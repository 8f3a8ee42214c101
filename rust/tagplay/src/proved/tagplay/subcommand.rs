// Made of crates/tagplay/src/subcommand.rt, where the contracts are, by rust/generate.

//! The subcommand that a command line names.

use crate::base::command_line::ArgMatches;
use crate::base::io::Write;
use crate::base::sleep::Wait;
use crate::base::thread::Threads;
use crate::base::vec::Global;
use crate::proved::tag_runs::{run_check, run_play, run_script, PlayOptions, RunFault, Source};
use crate::proved::tag_script::{CheckOptions, Ending, ScriptOptions};
use crate::proved::tagplay::options::{check_options, play_options, script_options};

/// A subcommand with its options.
#[derive(Clone, Copy, Debug, PartialEq, Eq)]
pub enum Subcommand {
    /// Carry out a script.
    Script(ScriptOptions),
    /// Check a list of events.
    Check(CheckOptions),
    /// Play a log.
    Play(PlayOptions),
}

impl Subcommand {
    /// Returns the subcommand given, with its options, or `None` if it is none of the three.
    pub(crate) fn named(matches: &ArgMatches) -> Option<Subcommand> {
        let (name, options) = matches.subcommand()?;
        if name == "script" {
            Some(Subcommand::Script(script_options(options)))
        } else if name == "check" {
            Some(Subcommand::Check(check_options(options)))
        } else if name == "play" {
            Some(Subcommand::Play(play_options(options)))
        } else {
            None
        }
    }

    /// Runs the chosen subcommand.
    pub(crate) fn run<T: Threads + Wait + Sync, R: Source, W: Write>(
        &self,
        rt: &T,
        alloc: Global,
        reader: &mut R,
        writer: &mut W,
    ) -> Result<Ending, RunFault> {
        match self {
            Subcommand::Script(options) => run_script(rt, alloc, options, reader, writer),
            Subcommand::Check(options) => run_check(alloc, options, reader, writer),
            Subcommand::Play(options) => run_play(rt, alloc, options, reader, writer),
        }
    }
}
