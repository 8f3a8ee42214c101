//! A thread that waits until each tag of a list has been back.

use crate::base::word::AtomicU32;
use crate::error::Result;
use crate::interface::futures::wait_for;
use crate::interface::{close, stage_with, take_all, use_it, Explored, Hand, Pool};
use crate::options::{Options, Shift};
use crate::scenarios::Scenario;
use crate::sleep::Sleeper;
use crate::steps::{fault, is_late, run_in_time};
use crate::tag::Tag;
use std::cell::{Cell, RefCell};
use std::time::Duration;

/// Ends no sleep for no reason. A thread that waits for a list counts its looks, so it would come to a new state each time.
struct Sound;

impl Sleeper for Sound {
    fn sleep(&self, word: &AtomicU32, expected: u32, end: Option<Duration>) {
        while word.peek() == expected && !(end.is_some() && is_late()) {
            Explored.sleep(word, expected, end);
        }
    }

    fn wake(&self, word: &AtomicU32) {
        Explored.wake(word);
    }

    fn now(&self) -> Duration {
        Explored.now()
    }
}

/// Gives tags back one after another, and notes each before.
fn give_back(held: Vec<Tag<'_, usize>>, given: &[Cell<bool>]) {
    for tag in held {
        given[tag.number() as usize].set(true);
        drop(tag);
    }
}

/// Waits until each tag from this one on has been back.
fn wait_from(first: usize, pool: &Pool, given: &[Cell<bool>]) {
    let numbers: Vec<u32> = (first as u32..given.len() as u32).collect();
    if pool.drain_list(&numbers).is_err() || !given[first..].iter().all(Cell::get) {
        fault("a wait for a list ended before its tags were back");
    }
}

/// The last thread gives back all tags, which it has at the start, one after another. The first one waits until each has been
/// back, and rests between its looks until the time is up. The others sleep until there is a tag, and give it back.
pub fn list(scenario: Scenario) {
    let (pool, hands) = stage_with(&scenario.options(), &Sound);
    let held = RefCell::new(take_all(&hands[scenario.threads - 1]));
    let given = vec![Cell::new(false); scenario.tags];
    run_in_time(&hands, |me, hand| match me {
        1 => wait_from(0, &pool, &given),
        _ if me == scenario.threads => give_back(held.take(), &given),
        _ => (0..scenario.rounds).for_each(|_| use_it(me, hand.get_blocking())),
    });
    drop((held, given));
    drop(hands);
    close(pool);
}

/// The same with all tags in one word. The first one waits for all but the least, which another one keeps: it may sweep the
/// others free with that.
fn pick_by<'a>(pool: &Pool, hands: &'a [Hand], get: fn(&'a Hand) -> Result<Tag<'a, usize>>) {
    let held = take_all(&hands[hands.len() - 1]);
    let (given, kept) = (vec![Cell::new(false); held.len()], RefCell::new(Vec::new()));
    let held = RefCell::new(held);
    run_in_time(hands, |me, hand| match me {
        1 => wait_from(1, pool, &given),
        _ if me == hands.len() => give_back(held.take(), &given),
        _ => kept.borrow_mut().extend(get(hand)),
    });
}

fn one_word(scenario: Scenario) -> (Pool, Vec<Hand>) {
    let options = Options {
        shift: Shift::Of(6),
        ..scenario.options()
    };
    stage_with(&options, &Sound)
}

pub fn pick(scenario: Scenario) {
    let (pool, hands) = one_word(scenario);
    pick_by(&pool, &hands, Hand::get_blocking);
    drop(hands);
    close(pool);
}

pub fn pick_by_future(scenario: Scenario) {
    let (pool, hands) = one_word(scenario);
    pick_by(&pool, &hands, |hand| wait_for(hand.get_async(), None));
    drop(hands);
    close(pool);
}
