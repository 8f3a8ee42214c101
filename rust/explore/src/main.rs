//! Runs a few threads of the proved modules, and of the interface of `tags` over them, through every state: `explore`, or
//! `explore PLAY THREADS TAGS ROUNDS [SWITCHES]`. With SWITCHES only schedules are tried that leave a thread at most so often
//! that could go on. It ends with status 1 at a fault. See README.md.

extern crate alloc;

#[allow(dead_code, reason = "the explorer makes a part of the calls")]
mod base;
#[path = "../../tags/src"]
#[allow(dead_code, unused_imports, reason = "the explorer makes a part of the calls")]
mod tags {
    pub mod allocator;
    pub mod batch;
    pub mod bell;
    pub mod cells;
    pub mod error;
    pub mod future;
    pub mod gate;
    pub mod hand;
    pub mod held;
    pub mod lists;
    pub mod notes;
    pub mod options;
    pub mod owned;
    pub mod pool;
    #[allow(
        clippy::complexity,
        clippy::perf,
        clippy::style,
        reason = "Rattle decides how its source is written"
    )]
    pub mod proved;
    pub mod queue;
    pub mod queues;
    pub mod sets;
    pub mod shared;
    pub mod shared_hands;
    pub mod side;
    pub mod sleep;
    pub mod tag;
    pub mod thread;
    pub mod waits;
}

mod fiber;
mod image;
mod interface;
mod memory;
#[path = "../../tags/src/base/lock.rs"]
#[allow(dead_code, reason = "the explorer makes a part of the calls")]
mod own_lock;
mod scenarios;
mod search;
mod stage;
mod steps;
mod threads;

// As the modules of `tags` name each other.
use tags::{allocator, batch, bell, cells, error, future, gate, hand, lists, notes, options, owned};
use tags::{pool, proved, queue, queues, sets, shared, shared_hands, side, sleep, tag, thread, waits};

use scenarios::PLAYS;
use search::{explore, Explored};
use std::process::ExitCode;
use steps::fault;

/// The seconds of a processor that the program has taken.
fn seconds() -> f64 {
    let text = std::fs::read_to_string("/proc/self/schedstat").unwrap_or_default();
    let nanoseconds = text.split(' ').next().and_then(|it| it.parse::<f64>().ok());
    nanoseconds.unwrap_or_default() / 1e9
}

/// Goes through the states of a scenario, and says how many there are.
fn carry_out(words: &str) -> Option<usize> {
    let (play, scenario, most) = scenarios::read(words)?;
    let begin = seconds();
    let Explored {
        states,
        ends,
        steps,
        longest,
    } = explore(words, most, || play(scenario));
    let extent = most.map_or("all".into(), |most| format!("at most {most} switches"));
    let time = seconds() - begin;
    println!("{words}: {extent}: {states} states, {ends} ends, {steps} steps, up to {longest} in a row, {time:.1} s");
    Some(states)
}

fn carry_out_all() {
    let sizes = PLAYS
        .iter()
        .flat_map(|(name, _, sizes)| sizes.iter().map(move |it| format!("{name} {it}")));
    let (mut states, mut all, mut whole) = (0, 0, 0);
    for words in sizes {
        states += carry_out(&words).unwrap_or_else(|| fault(format!("there is no {words}")));
        all += 1;
        whole += u32::from(words.split(' ').count() == 4);
    }
    let time = seconds();
    println!("explore: {states} states of {all} scenarios, {whole} of them completely, no fault, {time:.0} s");
}

fn main() -> ExitCode {
    if cfg!(not(all(target_arch = "x86_64", target_os = "linux"))) {
        println!("explore: it takes Linux on x86-64, for which its threads are coroutines");
        return ExitCode::from(2);
    }
    // What a thread panics with is a fault, which is told in one line.
    std::panic::set_hook(Box::new(|panic| fault(panic.to_string().replace('\n', " "))));
    let words = std::env::args().skip(1).collect::<Vec<_>>().join(" ");
    if words.is_empty() {
        carry_out_all();
    } else if carry_out(&words).is_none() {
        let plays = PLAYS.map(|it| it.0).join("|");
        println!("explore [{plays} THREADS TAGS ROUNDS [SWITCHES]]");
        return ExitCode::from(2);
    }
    ExitCode::SUCCESS
}
