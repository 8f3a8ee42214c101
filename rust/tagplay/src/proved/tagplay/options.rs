// Made of crates/tagplay/src/options.rt, where the contracts are, by rust/generate.

//! The command line: its subcommands, their options and their help.

use crate::base::command_line::{value_parser, Arg, ArgAction, ArgMatches, Command};
use crate::base::vec::{AllocError, Global};
use crate::proved::loop_device::Setup;
use crate::proved::tag_runs::PlayOptions;
use crate::proved::tag_script::{CheckOptions, ScriptOptions};

/// Default for the most tags that a caller may win, 2^48.
const DEFAULT_LIFE: u64 = 281_474_976_710_656;

/// Returns the parser of the command line.
pub(crate) fn command<'a>(alloc: Global) -> Result<Command<'a>, AllocError> {
    Command::new(alloc, "tagplay")
        .version("0.1.0, proved with logic dac8208d650f15bf")
        .about("Runs a tag allocator on lines of standard input, and writes the answers to standard output")
        .subcommand_required(true)
        .subcommand(script_command(alloc)?)?
        .subcommand(check_command(alloc)?)?
        .subcommand(play_command(alloc)?)
}

fn script_command<'a>(alloc: Global) -> Result<Command<'a>, AllocError> {
    let script = Command::new(alloc, "script")
        .about(
            "Carries out a script of callers that share tags, one command a line, such as '0 get'",
        )
        .arg(tags(alloc))?
        .arg(count(alloc, "reserved", "R", "0").help(
            "How many of the N tags, the first ones, are reserved: only get-reserved takes them",
        ))?
        .arg(shift(alloc))?
        .arg(round_robin(alloc))?
        .arg(min_shallow(alloc))?
        .arg(count(alloc, "callers", "C", "1").help("Number of callers, 1 to 64, numbered from 0"))?
        .arg(life(alloc))?
        .arg(plain(alloc))?
        .after_help(
            "Each line is a caller's number and a command: get, get-reserved, shallow D, batch N, clear T, clear-batch T1 T2 ..,\n\
            post T, take T, wait, leave, wakes, busy, show, show reserved, dump, dump reserved or resize N.\n\
            With --plain: get, shallow D, batch N, clear T, clear-batch T1 T2 .., busy, show or dump, all by caller 0.\n\
            Exit status: 0 done, 1 refused, 2 mistaken command line, 3 out of memory, input too long, or a read or write fault.",
        );
    Ok(script)
}

fn check_command<'a>(alloc: Global) -> Result<Command<'a>, AllocError> {
    let check = Command::new(alloc, "check")
        .about(
            "Decides whether a list of events is possible, one event a line, such as 'win 0 0 8'",
        )
        .arg(tags(alloc))?
        .arg(shift(alloc))?
        .arg(count(alloc, "callers", "C", "1").help("Number of callers, 1 to 64, numbered from 0"))?
        .after_help(
            "Each line is look, win C W M, give C W M, keep C W M, put C T, sweep C W, spill C W, post C T or take C T:\n\
            caller C, word W, tag T, and decimal mask M, whose lowest bit is the word's first tag.\n\
            Exit status: 0 possible, 1 refused, 2 mistaken command line, 3 out of memory, input too long, or a read or write fault.",
        );
    Ok(check)
}

fn play_command<'a>(alloc: Global) -> Result<Command<'a>, AllocError> {
    let play = Command::new(alloc, "play")
        .about(
            "Carries out an I/O log of fio on a block device in memory, by threads that share tags",
        )
        .arg(tags(alloc))?
        .arg(count(alloc, "reserved", "R", "0").help(
            "How many of the N tags are set apart, fewer than N; no line uses them",
        ))?
        .arg(shift(alloc))?
        .arg(count(alloc, "submitters", "A", "1").help(
            "Threads that submit lines, 1 to 16; each takes every A-th I/O line of the log",
        ))?
        .arg(count(alloc, "completers", "B", "1").help(
            "Threads that carry out what was submitted, 1 to 16",
        ))?
        .arg(count(alloc, "queue", "Q", "64").help(
            "Lines that wait for a completer at most, 1 to 10240; beyond that a submitter carries out its own line",
        ))?
        .arg(with_times(alloc))?
        .after_help(
            "The log is of version 2: 'fio version 2 iolog', then lines NAME add, NAME open, NAME close, and NAME read, write,\n\
            trim, sync, datasync or wait with an offset and a length in bytes; it has 16 names at most.\n\
            fio writes a log with --write_iolog. Since fio 3.31 it is of version 3: 'fio version 3 iolog', then the same lines with\n\
            a time before each. --with-times plays it: the times must never fall; they are read and not waited for.\n\
            At most N - R lines are under way at once, as with fio's iodepth. No order of lines is promised, and a wait is\n\
            counted but waits for nothing. The report counts the lines by kind, and the tags.\n\
            Exit status: 0 each line carried out once, 1 refused, 2 mistaken command line, 3 out of memory, input too long, or a\n\
            read or write fault.",
        );
    Ok(play)
}

/// Returns the options of a `script` command line.
pub(crate) fn script_options(matches: &ArgMatches) -> ScriptOptions {
    ScriptOptions {
        tags: number(matches, "tags", 0),
        reserved: number(matches, "reserved", 0),
        shift: optional(matches, "shift"),
        round_robin: flag(matches, "round-robin"),
        min_shallow: optional(matches, "min-shallow"),
        callers: number(matches, "callers", 1),
        life: long_number(matches, "life").unwrap_or(DEFAULT_LIFE),
        plain: flag(matches, "plain"),
    }
}

/// Returns the options of a `check` command line.
pub(crate) fn check_options(matches: &ArgMatches) -> CheckOptions {
    CheckOptions {
        tags: number(matches, "tags", 0),
        shift: optional(matches, "shift"),
        callers: number(matches, "callers", 1),
    }
}

/// Returns the options of a `play` command line.
pub(crate) fn play_options(matches: &ArgMatches) -> PlayOptions {
    PlayOptions {
        setup: setup(matches),
        with_times: flag(matches, "with-times"),
    }
}

/// Returns how a log is played.
fn setup(matches: &ArgMatches) -> Setup {
    Setup {
        total: number(matches, "tags", 0),
        reserved: number(matches, "reserved", 0),
        shift: optional(matches, "shift"),
        submitters: number(matches, "submitters", 1),
        completers: number(matches, "completers", 1),
        queue: number(matches, "queue", 64),
    }
}

/// Returns the number of an option, or `otherwise` if it has none. One that is required or has a default has a number.
fn number(matches: &ArgMatches, id: &str, otherwise: u32) -> u32 {
    optional(matches, id).unwrap_or(otherwise)
}

fn optional(matches: &ArgMatches, id: &str) -> Option<u32> {
    matches.get_one::<u32>(id)
}

fn long_number(matches: &ArgMatches, id: &str) -> Option<u64> {
    matches.get_one::<u64>(id)
}

fn flag(matches: &ArgMatches, id: &str) -> bool {
    matches.get_flag(id)
}

fn tags<'a>(alloc: Global) -> Arg<'a> {
    Arg::new(alloc, "tags")
        .long("tags")
        .value_name("N")
        .value_parser(value_parser!(u32))
        .required(true)
        .help("Number of tags, at most 10240")
}

fn shift<'a>(alloc: Global) -> Arg<'a> {
    Arg::new(alloc, "shift")
        .long("shift")
        .value_name("S")
        .value_parser(value_parser!(u32))
        .help(
            "Bits in a word, as the power 2^S, S at most 6 [default: the greatest S with four whole words, or 6 for fewer than 4 tags]",
        )
}

/// Returns an option that takes a number and has a default.
fn count<'a>(alloc: Global, name: &'static str, letter: &'static str, default: &'static str) -> Arg<'a> {
    Arg::new(alloc, name)
        .long(name)
        .value_name(letter)
        .value_parser(value_parser!(u32))
        .default_value(default)
}

fn round_robin<'a>(alloc: Global) -> Arg<'a> {
    Arg::new(alloc, "round-robin")
        .long("round-robin")
        .action(ArgAction::SetTrue)
        .help("Starts each get behind the last tag won, and takes no earlier place in that word")
}

fn min_shallow<'a>(alloc: Global) -> Arg<'a> {
    Arg::new(alloc, "min-shallow")
        .long("min-shallow")
        .value_name("M")
        .value_parser(value_parser!(u32))
        .help("Least depth of a shallow get; a lesser one is refused [default: 1]")
}

fn life<'a>(alloc: Global) -> Arg<'a> {
    Arg::new(alloc, "life")
        .long("life")
        .value_name("L")
        .value_parser(value_parser!(u64))
        .default_value("281474976710656")
        .help("Most tags of each set that a caller may win, at most 2^48; without effect under --plain")
}

fn with_times<'a>(alloc: Global) -> Arg<'a> {
    Arg::new(alloc, "with-times")
        .long("with-times")
        .action(ArgAction::SetTrue)
        .help("Plays a log of version 3, in which each line begins with a time in milliseconds")
}

fn plain<'a>(alloc: Global) -> Arg<'a> {
    Arg::new(alloc, "plain")
        .long("plain")
        .action(ArgAction::SetTrue)
        .help("Runs over the plain words of one caller: no reserved tags, posts, waits or resizes")
}
