//! Threads whose hands keep tags.

use crate::interface::{close, stage, use_it, used};
use crate::options::Options;
use crate::scenarios::Scenario;
use crate::steps::{fault, run, sleepers};

/// Each thread sleeps until it has a tag, and gives it back, to its hand if nobody waits. The hand leaves at the end.
pub fn keep(scenario: Scenario) {
    let (pool, hands) = stage(&Options {
        cache: 1,
        ..scenario.options()
    });
    run(hands, |me, hand| {
        for _ in 0..scenario.rounds {
            let tag = used(me, hand.get_blocking());
            let asleep = sleepers();
            drop(tag);
            if scenario.is_least() && asleep & sleepers() != 0 {
                fault("a hand keeps a tag though somebody slept");
            }
        }
    });
    close(pool);
}

/// Each thread holds two tags at a time, one of which it gives back and gets again. Its hand keeps tags only meanwhile: it
/// neither gives them back otherwise nor leaves.
pub fn hoard(scenario: Scenario) {
    let (pool, hands) = stage(&Options {
        cache: 2,
        keep_while_holding: true,
        ..scenario.options()
    });
    run(&hands, |me, hand| {
        for _ in 0..scenario.rounds {
            let [first, second] = [(); 2].map(|()| hand.get_blocking());
            use_it(me, first);
            let third = hand.get_blocking();
            use_it(me, second);
            use_it(me, third);
        }
    });
    drop(hands);
    close(pool);
}
