//! Threads that share hands, one for each of them.

use crate::error::Result;
use crate::interface::futures::wait_for;
use crate::interface::{close, open, use_it};
use crate::options::Options;
use crate::owned::OwnedTag;
use crate::scenarios::Scenario;
use crate::stage::Access;
use crate::steps::{fault, run, step};

type SharedHands = crate::shared_hands::SharedHands<usize>;

/// Each thread gets a tag so, and gives it back, over caches of one tag.
fn play(scenario: Scenario, get: fn(&SharedHands) -> Result<OwnedTag<usize>>) {
    let options = Options {
        cache: 1,
        ..scenario.options()
    };
    let pool = open(&options);
    let Ok(hands) = pool.share(options.hands) else {
        fault("the hands were not shared");
    };
    let clones = (1..scenario.threads).map(|_| hands.clone()).collect::<Vec<_>>();
    run(clones.into_iter().chain([hands]), |me, hands| {
        (0..scenario.rounds).for_each(|_| use_it(me, get(&hands)));
        // Which of the threads lets go last a count decides, whose steps the explorer does not see.
        step(0, Access::Word);
        drop(hands);
    });
    close(pool);
}

/// They sleep until there is a tag.
pub fn sleep(scenario: Scenario) {
    play(scenario, SharedHands::get_blocking);
}

/// They wait for a future.
pub fn await_each(scenario: Scenario) {
    play(scenario, |hands| wait_for(hands.get_async(), None));
}
