//! Threads that wait for tags of both sets: each is told of tags of its own.

use crate::error::Result;
use crate::interface::futures::{is_over, wait_for};
use crate::interface::{close, stage, take_all, use_it, Hand, Pool};
use crate::options::Options;
use crate::scenarios::Scenario;
use crate::steps::run;
use crate::tag::Tag;
use std::cell::RefCell;
use std::sync::Arc;

/// Opens a pool with as many reserved tags as ordinary ones.
fn stage_both(scenario: Scenario, cache: u32) -> (Pool, Vec<Hand>) {
    stage(&Options {
        total: 2 * scenario.tags as u32,
        reserved: scenario.tags as u32,
        cache,
        ..scenario.options()
    })
}

/// Takes all reserved tags.
pub fn take_reserved(hand: &Hand) -> Vec<Tag<'_, usize>> {
    std::iter::from_fn(|| hand.get_reserved().ok().flatten()).collect()
}

/// The last thread gives all tags of both sets back one by one, which it has at the start. The first one does as it is told,
/// and so do the others, each of which uses the tag that it gets.
fn play(scenario: Scenario, first: impl Fn(&Hand), other: impl Fn(&Hand) -> Result<Tag<'_, usize>>) {
    let (pool, hands) = stage_both(scenario, 0);
    let last = &hands[scenario.threads - 1];
    let held = RefCell::new((take_all(last), take_reserved(last)));
    run(&hands, |me, hand| match me {
        1 => first(hand),
        _ if me == scenario.threads => drop(held.take()),
        _ => use_it(me, other(hand)),
    });
    drop(held);
    drop(hands);
    close(pool);
}

/// The first thread sleeps for a reserved tag, and the others for an ordinary one.
pub fn apart(scenario: Scenario) {
    let reserved = |hand: &Hand| (0..scenario.rounds).for_each(|_| use_it(1, hand.get_reserved_blocking()));
    play(scenario, reserved, Hand::get_blocking);
}

/// Two futures wait behind the first hand: one for a reserved tag, which is dropped once the other one has an ordinary
/// tag. The others wait for a future for a reserved tag.
pub fn await_both(scenario: Scenario) {
    let both = |hand: &Hand| {
        let mut dropped = hand.get_reserved_async();
        is_over(1, &mut dropped, &Arc::default());
        use_it(1, wait_for(hand.get_async(), None));
    };
    play(scenario, both, |hand| wait_for(hand.get_reserved_async(), None));
}

/// Each thread sleeps for a tag of one set, gives it back, and then does so with the other set. Threads of an even
/// number begin with the ordinary tags.
pub fn in_turn(scenario: Scenario) {
    let (pool, hands) = stage_both(scenario, 0);
    run(&hands, |me, hand| {
        for turn in me..me + 2 * scenario.rounds {
            use_it(
                me,
                match turn % 2 {
                    0 => hand.get_blocking(),
                    _ => hand.get_reserved_blocking(),
                },
            );
        }
    });
    drop(hands);
    close(pool);
}

/// Over caches of one tag. The first thread gives an ordinary tag back, which its hand keeps, and sleeps for a reserved
/// one. The last one has all of these at the start, and gives them back once it has had an ordinary tag. At its end
/// each thread gives back what its hand keeps.
pub fn swap(scenario: Scenario) {
    let (pool, hands) = stage_both(scenario, 1);
    let held = RefCell::new(take_reserved(&hands[scenario.threads - 1]));
    run(&hands, |me, hand| {
        use_it(me, hand.get_blocking());
        if me == 1 {
            use_it(me, hand.get_reserved_blocking());
        } else if me == scenario.threads {
            drop(held.take());
        }
        hand.flush();
    });
    drop(held);
    drop(hands);
    close(pool);
}

/// The last thread gives back all reserved tags one by one. The first one tries once, in which it may free tags for the
/// others, and those sleep. Each keeps the tag that it gets.
pub fn sift(scenario: Scenario) {
    let (pool, hands) = stage_both(scenario, 0);
    let held = RefCell::new(take_reserved(&hands[scenario.threads - 1]));
    let kept = RefCell::new(Vec::new());
    run(&hands, |me, hand| {
        let tag = match me {
            1 => hand.get_reserved().ok().flatten(),
            _ if me == scenario.threads => return drop(held.take()),
            _ => hand.get_reserved_blocking().ok(),
        };
        kept.borrow_mut().extend(tag);
    });
    drop((held, kept));
    drop(hands);
    close(pool);
}
