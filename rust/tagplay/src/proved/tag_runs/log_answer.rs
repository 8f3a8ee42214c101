// Made of crates/tag_runs/src/log_answer.rt, where the contracts are, by rust/generate.

//! The output for a log: the line of its first fault, otherwise the outcome of its play.

use crate::base::sleep::Wait;
use crate::base::thread::Threads;
use crate::base::vec::{AllocError, Global, Vec};
use crate::proved::loop_device::{play, Log, LogCause, LogFault, OpenGate, PlayFault, Setup};
use crate::proved::tag_lines::{Place, Refusal};
use crate::proved::tag_runs::options::PlayOptions;
use crate::proved::tag_runs::report::{push_log_fault, push_play_fault, push_report};
use crate::proved::tag_script::Ending;

/// Returns the output that `input` specifies, and whether it is a refusal. `AllocError` if memory runs out. The whole
/// log is read before any line is carried out, so a malformed log has no partial play.
pub(crate) fn answer_log<T: Threads + Wait + Sync>(
    rt: &T,
    alloc: Global,
    options: &PlayOptions,
    input: &[u8],
) -> Result<(Vec<u8>, Ending), AllocError> {
    let mut text = Vec::new(alloc);
    let log = match read_log(alloc, options.with_times, input) {
        Ok(log) => log,
        Err(fault) => {
            if fault.cause == LogCause::Memory {
                return Err(AllocError);
            }
            push_log_fault(&mut text, fault)?;
            return Ok((text, Ending::Refused(fault.refusal(options.with_times))));
        }
    };
    match play(rt, alloc, &log, options.setup, &OpenGate) {
        Ok(report) => {
            push_report(&mut text, &log, &report)?;
            Ok((text, Ending::Done))
        }
        Err(fault) => {
            push_play_fault(&mut text, fault)?;
            Ok((text, Ending::Refused(play_refusal(&options.setup, fault))))
        }
    }
}

/// Reads a log of version 3, which has times, or of version 2.
fn read_log(alloc: Global, with_times: bool, input: &[u8]) -> Result<Log, LogFault> {
    if with_times {
        Log::read_with_times(alloc, input)
    } else {
        Log::read(alloc, input)
    }
}

/// Why a log was not played, in words.
fn play_refusal(setup: &Setup, fault: PlayFault) -> Refusal {
    let (place, what) = match fault {
        PlayFault::Memory => (Place::Whole, "out of memory"),
        PlayFault::Setup => (Place::Whole, setup.flaw().unwrap_or("no such setup")),
        PlayFault::Lost(line) => (Place::Line(line), "not carried out: a bug in tagplay"),
        PlayFault::Twice(line) => (Place::Line(line), "carried out more than once: a bug in tagplay"),
        PlayFault::Spurious => (
            Place::Whole,
            "what was carried out is no line of the log: a bug in tagplay",
        ),
        PlayFault::Totals => (
            Place::Whole,
            "the totals are not one tag got and given back for each line: a bug in tagplay",
        ),
    };
    Refusal { place, what }
}
