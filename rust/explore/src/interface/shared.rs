//! Threads that share a hand.

use crate::error::Result;
use crate::interface::futures::wait_for;
use crate::interface::{close, join, open, use_in_time, use_it, Pool, SharedHand, LIMIT};
use crate::owned::OwnedTag;
use crate::scenarios::Scenario;
use crate::stage::Access;
use crate::steps::{run, run_in_time, step};
use std::cell::RefCell;

/// A hand for each thread: the first two share one.
fn stage_shared(scenario: Scenario) -> (Pool, Vec<SharedHand>) {
    let pool = open(&scenario.options());
    let shared = join(&pool).into_shared();
    let others = (2..scenario.threads).map(|_| join(&pool).into_shared());
    let hands = [shared.clone(), shared].into_iter().chain(others).collect();
    (pool, hands)
}

/// Takes all tags.
fn take_all(hand: &SharedHand) -> RefCell<Vec<OwnedTag<usize>>> {
    let all = std::iter::from_fn(|| hand.get().ok().flatten());
    RefCell::new(all.collect())
}

/// The hand leaves with the last of those who share it. Which one that is a count decides whose steps the explorer does not
/// see, so each lets go in a step of its own.
fn let_go(hand: SharedHand) {
    step(0, Access::Word);
    drop(hand);
}

/// Each thread gets a tag so, and gives it back.
fn play(scenario: Scenario, get: fn(&SharedHand) -> Result<OwnedTag<usize>>) {
    let (pool, hands) = stage_shared(scenario);
    run(hands, |me, hand| {
        (0..scenario.rounds).for_each(|_| use_it(me, get(&hand)));
        let_go(hand);
    });
    close(pool);
}

/// They sleep until there is a tag.
pub fn share(scenario: Scenario) {
    play(scenario, SharedHand::get_blocking);
}

/// They wait for a future.
pub fn share_futures(scenario: Scenario) {
    play(scenario, |hand| wait_for(hand.get_async(), None));
}

/// The last thread gives back all tags, which it has at the start. The first one waits for a time only, and the others
/// without a limit.
pub fn limit(scenario: Scenario) {
    let (pool, hands) = stage_shared(scenario);
    let held = take_all(&hands[scenario.threads - 1]);
    run_in_time(hands, |me, hand| {
        match me {
            1 => use_in_time(me, hand.get_timeout(LIMIT)),
            _ if me == scenario.threads => drop(held.take()),
            _ => use_it(me, hand.get_blocking()),
        }
        let_go(hand);
    });
    drop(held);
    close(pool);
}

/// All threads share a hand. The last one gives back all tags, which it has at the start, and the others wait for a future,
/// whose waker uses the hand.
pub fn meddle(scenario: Scenario) {
    let pool = open(&scenario.options());
    let hand = join(&pool).into_shared();
    let held = take_all(&hand);
    run(0..scenario.threads, |me, _| match me == scenario.threads {
        true => drop(held.take()),
        false => use_it(me, wait_for(hand.get_async(), Some(&hand))),
    });
    drop(held);
    drop(hand);
    close(pool);
}
