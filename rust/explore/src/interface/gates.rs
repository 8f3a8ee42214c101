//! Threads that wait until all tags are back, and for a hand.

use crate::error::Error;
use crate::interface::{close, join, open, sleep, stage, take_all, use_it, Pool, LIMIT};
use crate::options::{Kind, Options};
use crate::scenarios::Scenario;
use crate::steps::{fault, is_late, run, run_in_time};
use std::cell::RefCell;

/// The first thread gives back all tags, which it has at the start, and the last one does as it is told. The others sleep until
/// there is a tag or the pool is stopped.
fn play(scenario: Scenario, last: impl Fn(&Pool)) {
    let (pool, hands) = stage(&scenario.options());
    let held = RefCell::new(take_all(&hands[0]));
    run(&hands, |me, hand| match me {
        1 => drop(held.take()),
        _ if me == scenario.threads => last(&pool),
        _ => match hand.get_blocking() {
            Err(Error::Stopped) => (),
            answer => use_it(me, answer),
        },
    });
    drop(held);
    drop(hands);
    close(pool);
}

/// Waits until all tags are back. They are, if nobody gets any.
fn drain_all(scenario: Scenario, pool: &Pool) {
    pool.drain();
    if scenario.threads == 2 && pool.show(Kind::Ordinary).busy != 0 {
        fault("a drain ended before all tags were back");
    }
}

/// The last thread waits until all tags are back.
pub fn drain(scenario: Scenario) {
    play(scenario, |pool| drain_all(scenario, pool));
}

/// The first thread gives back all tags but one, and the others wait for a time only until all are back.
pub fn drain_in_time(scenario: Scenario) {
    let (pool, hands) = stage(&scenario.options());
    let mut all = take_all(&hands[0]);
    let kept = all.pop();
    let held = RefCell::new(all);
    run_in_time(&hands, |me, _| match me {
        1 => drop(held.take()),
        _ if pool.drain_timeout(LIMIT) => fault("a drain ended before all tags were back"),
        _ if is_late() => (),
        _ => fault("a wait ended too early"),
    });
    drop((kept, held));
    drop(hands);
    close(pool);
}

/// The last thread stops all waits for a tag, and waits until all tags are back.
pub fn shut_down(scenario: Scenario) {
    play(scenario, |pool| {
        pool.stop();
        drain_all(scenario, pool);
    });
}

/// There is a hand less than threads. Each thread waits for one, then waits for a tag and gives it back, and the hand leaves.
pub fn join_each(scenario: Scenario) {
    let pool = open(&Options {
        hands: scenario.threads as u32 - 1,
        ..scenario.options()
    });
    run(0..scenario.threads, |me, _| {
        for _ in 0..scenario.rounds {
            match pool.join_blocking() {
                Ok(hand) => sleep(Scenario { rounds: 1, ..scenario }, me, &hand),
                Err(_) => fault("a wait ended otherwise"),
            }
        }
    });
    close(pool);
}

/// Each thread but the last one has a hand, which leaves. The last one waits for all of these hands, and once they are
/// back closes the pool.
pub fn close_after_all(scenario: Scenario) {
    let hands = scenario.threads - 1;
    let (pool, others) = stage(&Options {
        hands: hands as u32,
        ..scenario.options()
    });
    let pool = RefCell::new(Some(pool));
    run(others.into_iter().map(Some).chain([None]), |_, hand| {
        if hand.is_some() {
            return drop(hand);
        }
        let Some(pool) = pool.take() else {
            fault("the pool is closed once");
        };
        let all: Vec<_> = (0..hands).map(|_| pool.join_blocking()).collect();
        if all.iter().any(Result::is_err) {
            fault("a wait ended otherwise");
        }
        drop(all);
        close(pool);
    });
}

/// The last thread has the only hand, and stops all waits: the others wait for a hand.
pub fn turn_away(scenario: Scenario) {
    let pool = open(&Options {
        hands: 1,
        ..scenario.options()
    });
    let hand = join(&pool);
    run(0..scenario.threads, |me, _| {
        if me == scenario.threads {
            pool.stop();
        } else if pool.join_blocking().err() != Some(Error::Stopped) {
            fault("a wait ended otherwise");
        }
    });
    drop(hand);
    close(pool);
}
