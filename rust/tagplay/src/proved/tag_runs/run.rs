// Made of crates/tag_runs/src/run.rt, where the contracts are, by rust/generate.

//! The three runs. Each reads its whole input, then computes the output, then writes it.

use crate::base::io::Write;
use crate::base::sleep::Wait;
use crate::base::thread::Threads;
use crate::base::vec::Global;
use crate::proved::tag_runs::fault::RunFault;
use crate::proved::tag_runs::input::read_whole;
use crate::proved::tag_runs::log_answer::answer_log;
use crate::proved::tag_runs::options::PlayOptions;
use crate::proved::tag_runs::source::Source;
use crate::proved::tag_script::{answer_script, verdict_on, CheckOptions, Ending, ScriptOptions};

/// Reads a script, one command per line, and writes the answers, at least one line for each command, and the totals
/// at the end.
pub fn run_script<T: Wait, R: Source, W: Write>(
    rt: &T,
    alloc: Global,
    options: &ScriptOptions,
    reader: &mut R,
    writer: &mut W,
) -> Result<Ending, RunFault> {
    let input = read_whole(alloc, reader)?;
    let Ok((text, ending)) = answer_script(rt, alloc, options, &input) else {
        return Err(RunFault::Memory);
    };
    match writer.write_all(&text) {
        Ok(()) => Ok(ending),
        Err(_) => Err(RunFault::Write),
    }
}

/// Reads a list of events, one per line, and writes whether it is possible: `ok` with the totals, or the number of the
/// first event that cannot happen and the reason.
pub fn run_check<R: Source, W: Write>(
    alloc: Global,
    options: &CheckOptions,
    reader: &mut R,
    writer: &mut W,
) -> Result<Ending, RunFault> {
    let input = read_whole(alloc, reader)?;
    let Ok(verdict) = verdict_on(alloc, options, &input) else {
        return Err(RunFault::Memory);
    };
    let Ok(text) = verdict.text(alloc) else {
        return Err(RunFault::Memory);
    };
    let ending = verdict.ending();
    match writer.write_all(&text) {
        Ok(()) => Ok(ending),
        Err(_) => Err(RunFault::Write),
    }
}

/// Reads a fio log and carries out its I/O lines on a device in memory, by threads that share tags. Writes the report,
/// which counts the lines carried out and the tags, or one line that says what is wrong.
pub fn run_play<T: Threads + Wait + Sync, R: Source, W: Write>(
    rt: &T,
    alloc: Global,
    options: &PlayOptions,
    reader: &mut R,
    writer: &mut W,
) -> Result<Ending, RunFault> {
    let input = read_whole(alloc, reader)?;
    let Ok((text, ending)) = answer_log(rt, alloc, options, &input) else {
        return Err(RunFault::Memory);
    };
    match writer.write_all(&text) {
        Ok(()) => Ok(ending),
        Err(_) => Err(RunFault::Write),
    }
}
