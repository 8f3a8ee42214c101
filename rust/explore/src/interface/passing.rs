//! Tags that one thread posts and another one takes.

use crate::batch::Numbers;
use crate::interface::batches::{get_batch, one_word, use_all};
use crate::interface::{close, stage, take_all, use_it, Hand};
use crate::options::Options;
use crate::scenarios::Scenario;
use crate::steps::{fault, run};
use std::cell::{Cell, RefCell};

/// Takes what is posted.
fn take_each(scenario: Scenario, me: usize, hand: &Hand) {
    let taken = (0..scenario.tags).filter_map(|it| hand.take(it as u32).ok());
    taken.for_each(|tag| use_it(me, Ok(tag)));
}

/// Hands keep a tag while they hold another one. The first thread, which has all tags at the start, gives one back, so that
/// its hand keeps it, and posts the others, so that the kept one goes back. Each other thread sleeps until it has a tag,
/// gives it back, and takes what is posted.
pub fn pass(scenario: Scenario) {
    let (pool, hands) = stage(&Options {
        cache: 1,
        keep_while_holding: true,
        ..scenario.options()
    });
    let held = RefCell::new(take_all(&hands[0]));
    run(&hands, |me, hand| {
        if me == 1 {
            let mut tags = held.take();
            drop(tags.pop());
            return tags.into_iter().for_each(|tag| _ = tag.post());
        }
        use_it(me, hand.get_blocking());
        take_each(scenario, me, hand);
    });
    take_each(scenario, 1, &hands[0]);
    drop(held);
    drop(hands);
    close(pool);
}

/// All tags are posted at the start. Each thread takes all but one of them together, another one in each thread, and gives
/// them back if it has got them, as one thread has to.
pub fn overlap(scenario: Scenario) {
    let (pool, hands) = one_word(scenario);
    let Some(posted) = get_batch(&hands[0], scenario.tags).map(|it| it.post()) else {
        fault("there is no tag");
    };
    let takes = Cell::new(0);
    run(&hands, |me, hand| {
        let wanted = Numbers::new(posted.first(), posted.mask() & !(1 << (me - 1)));
        if let Ok(batch) = hand.take_batch(wanted) {
            takes.set(takes.get() + 1);
            use_all(me, batch);
        }
    });
    if takes.get() == 0 {
        fault("each take was refused");
    }
    take_each(scenario, 1, &hands[0]);
    drop(hands);
    close(pool);
}
