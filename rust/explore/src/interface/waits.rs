//! Threads that sleep until there is a tag, each with a hand of its own.

use crate::error::Error;
use crate::interface::{close, sleep, stage, take_all, use_in_time, use_it, LIMIT};
use crate::scenarios::Scenario;
use crate::stage::Access;
use crate::steps::{fault, run, run_in_time, sleepers, step};
use std::cell::{Cell, RefCell};

/// Each thread sleeps until it has a tag, and gives it back.
pub fn wait(scenario: Scenario) {
    let (pool, hands) = stage(&scenario.options());
    run(&hands, |me, hand| sleep(scenario, me, hand));
    drop(hands);
    close(pool);
}

/// The last thread gives back all tags, which it has at the start. The first one waits for a time only, and the others
/// without a limit.
pub fn limit(scenario: Scenario) {
    let (pool, hands) = stage(&scenario.options());
    let held = RefCell::new(take_all(&hands[scenario.threads - 1]));
    run_in_time(&hands, |me, hand| match me {
        1 => (0..scenario.rounds).for_each(|_| use_in_time(me, hand.get_timeout(LIMIT))),
        _ if me == scenario.threads => drop(held.take()),
        _ => sleep(scenario, me, hand),
    });
    drop(held);
    drop(hands);
    close(pool);
}

/// The last thread has all tags, and stops all waits.
pub fn stop(scenario: Scenario) {
    let (pool, hands) = stage(&scenario.options());
    let held = take_all(&hands[scenario.threads - 1]);
    run(&hands, |me, hand| {
        if me == scenario.threads {
            pool.stop();
        } else if hand.get_blocking().err() != Some(Error::Stopped) {
            fault("a wait ended otherwise");
        }
    });
    drop(held);
    drop(hands);
    close(pool);
}

/// The last thread, which has all tags, stops all waits, lets others begin, and gives the tags back. Who slept before is
/// stopped.
pub fn resume(scenario: Scenario) {
    let (pool, hands) = stage(&scenario.options());
    let held = RefCell::new(take_all(&hands[scenario.threads - 1]));
    let slept = Cell::new(0);
    run(&hands, |me, hand| {
        if me == scenario.threads {
            step(std::ptr::from_ref(&slept) as usize, Access::Word);
            slept.set(sleepers());
            pool.stop();
            pool.resume();
            return drop(held.take());
        }
        match hand.get_blocking() {
            Err(Error::Stopped) => (),
            _ if slept.get() >> me & 1 == 1 => fault("a wait went on that was stopped"),
            answer => use_it(me, answer),
        }
    });
    drop(held);
    drop(hands);
    close(pool);
}
