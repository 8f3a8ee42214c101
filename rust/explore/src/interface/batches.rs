//! Threads that hold several tags of one word, and try no longer where there are none.

use crate::batch::Batch;
use crate::interface::{close, stage, take_all, use_it, Hand, Pool};
use crate::options::{Options, Shift};
use crate::scenarios::Scenario;
use crate::steps::{fault, run};
use crate::tag::Tag;
use std::cell::RefCell;

pub(super) fn one_word(scenario: Scenario) -> (Pool, Vec<Hand>) {
    stage(&Options {
        shift: Shift::Of(6),
        ..scenario.options()
    })
}

pub(super) fn get_batch(hand: &Hand, n: usize) -> Option<Batch<'_, usize>> {
    let found = hand.get_batch(n as u32);
    found.unwrap_or_else(|_| fault("a call was refused"))
}

/// Uses all tags of a batch, and gives them back together, or one by one in a thread of an even number.
pub(super) fn use_all(me: usize, mut batch: Batch<'_, usize>) {
    for (old, new) in [(0, me), (me, 0)] {
        for number in batch.numbers() {
            let user = batch.value_mut(number).map(|it| std::mem::replace(it, new));
            if user != Some(old) {
                fault("a tag has two users");
            }
        }
    }
    if me % 2 == 0 {
        std::iter::from_fn(|| batch.pop()).for_each(drop);
    }
}

/// Each thread gets a batch of two tags, or fewer, and gives it back.
pub fn batch(scenario: Scenario) {
    let (pool, hands) = one_word(scenario);
    run(&hands, |me, hand| {
        for _ in 0..scenario.rounds {
            get_batch(hand, 2).into_iter().for_each(|batch| use_all(me, batch));
        }
    });
    drop(hands);
    close(pool);
}

/// Each thread gets two tags, one after the other, and gives them back one by one.
pub fn pairs(scenario: Scenario) {
    let (pool, hands) = one_word(scenario);
    run(&hands, |me, hand| {
        for _ in 0..scenario.rounds {
            let tags = [(); 2].map(|()| hand.get().transpose());
            tags.into_iter().flatten().for_each(|tag| use_it(me, tag));
        }
    });
    drop(hands);
    close(pool);
}

/// The last thread gives back all tags, which it has at the start. The first one does as it is told, and the others sleep.
/// Each keeps the tag that it gets.
fn deal_out<'a>(
    scenario: Scenario,
    hands: &'a [Hand],
    held: impl Sized,
    first: fn(&'a Hand) -> Option<Tag<'a, usize>>,
) {
    let (held, kept) = (RefCell::new(Some(held)), RefCell::new(Vec::new()));
    run(hands, |me, hand| {
        let tag = match me {
            _ if me == scenario.threads => return drop(held.take()),
            1 => first(hand),
            _ => hand.get_blocking().ok(),
        };
        kept.borrow_mut().extend(tag);
    });
}

/// The tags go back together, and all others sleep.
pub fn deal(scenario: Scenario) {
    let (pool, hands) = one_word(scenario);
    let held = get_batch(&hands[scenario.threads - 1], scenario.tags);
    deal_out(scenario, &hands, held, |hand| hand.get_blocking().ok());
    drop(hands);
    close(pool);
}

/// The tags go back one by one. The first thread tries once, in which it may free tags for the others.
pub fn sift(scenario: Scenario) {
    let (pool, hands) = one_word(scenario);
    let held = take_all(&hands[scenario.threads - 1]);
    deal_out(scenario, &hands, held, |hand| hand.get().ok().flatten());
    drop(hands);
    close(pool);
}
