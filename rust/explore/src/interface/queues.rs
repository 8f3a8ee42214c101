//! Threads that submit tags to a queue, and that take the next tag of it.

use crate::batch::Numbers;
use crate::error::{Error, Result};
use crate::interface::futures::{poll, wait_for};
use crate::interface::{close, join, open, stage, take_all, use_in_time, use_it, used, Hand, Pool, LIMIT};
use crate::options::Options;
use crate::scenarios::Scenario;
use crate::steps::{fault, run, run_in_time};
use crate::tag::Tag;
use std::cell::{Cell, RefCell};
use std::sync::Arc;
use std::task::Poll;

const QUEUE: u32 = 0;

fn stage_queue(scenario: Scenario) -> (Pool, Vec<Hand>) {
    stage(&Options {
        queues: 1,
        ..scenario.options()
    })
}

/// Submits a tag that is not in the queue.
fn submit(tag: Tag<'_, usize>) -> u32 {
    tag.submit(QUEUE).unwrap_or_else(|_| fault("a submit was refused"))
}

fn submit_all(tags: Vec<Tag<'_, usize>>) {
    for tag in tags {
        submit(tag);
    }
}

/// Takes all tags, the lowest first.
fn take_sorted(hand: &Hand) -> RefCell<Vec<Tag<'_, usize>>> {
    let mut tags = take_all(hand);
    tags.sort_unstable_by_key(Tag::number);
    RefCell::new(tags)
}

/// Closes a pool whose hands have all left. The queue is empty and each tag has its token: all can be submitted, and come
/// in this order. Then each can be posted for others.
fn close_queue(pool: Pool) {
    let hand = join(&pool);
    if pool.queued(QUEUE) != Ok(0) || !matches!(hand.next(QUEUE), Ok(None)) {
        fault("a tag was left in the queue");
    }
    let numbers: Vec<u32> = take_all(&hand).into_iter().map(submit).collect();
    for number in numbers {
        if hand.next(QUEUE).ok().flatten().map(Tag::post) != Some(number) {
            fault("a tag is out of its place");
        }
        if hand.take(number).is_err() {
            fault("a tag is taken for one that is in the queue");
        }
    }
    drop(hand);
    close(pool);
}

/// The tag that a thread took last: as all were submitted in the order of their numbers, the next one is higher.
struct Order(Cell<Option<u32>>);

impl Order {
    fn check(&self, tag: &Tag<'_, usize>) {
        if self.0.replace(Some(tag.number())) >= Some(tag.number()) {
            fault("a tag comes before one that was submitted earlier");
        }
    }
}

/// The last thread submits all tags, which it has at the start. Each other one takes so many in this way, and keeps them: there
/// are as many.
fn play<'a>(scenario: Scenario, hands: &'a [Hand], next: impl Fn(&'a Hand) -> Result<Tag<'a, usize>>) {
    let held = take_sorted(&hands[scenario.threads - 1]);
    let kept = RefCell::new(Vec::new());
    run(hands, |me, hand| {
        if me == scenario.threads {
            return submit_all(held.take());
        }
        let order = Order(Cell::default());
        for _ in 0..scenario.tags / (scenario.threads - 1) {
            let tag = used(me, next(hand));
            order.check(&tag);
            kept.borrow_mut().push(tag);
        }
    });
}

/// They sleep until there is one.
pub fn submit_each(scenario: Scenario) {
    let (pool, hands) = stage_queue(scenario);
    play(scenario, &hands, |hand| hand.next_blocking(QUEUE));
    drop(hands);
    close_queue(pool);
}

/// They wait for a future.
pub fn submit_to_futures(scenario: Scenario) {
    let (pool, hands) = stage_queue(scenario);
    play(scenario, &hands, |hand| wait_for(hand.next_async(QUEUE), None));
    drop(hands);
    close_queue(pool);
}

/// Each thread gets a tag if there is one, submits it, and takes the next tag if there is one, which it gives back.
pub fn relay(scenario: Scenario) {
    let (pool, hands) = stage_queue(scenario);
    run(&hands, |me, hand| {
        for _ in 0..scenario.rounds {
            hand.get().ok().flatten().map(submit);
            if let Ok(Some(tag)) = hand.next(QUEUE) {
                use_it(me, Ok(tag));
            }
        }
    });
    take_rest(&hands[0]);
    drop(hands);
    close_queue(pool);
}

/// What two threads have taken from each other is left in no queue.
fn take_rest(hand: &Hand) {
    while let Ok(Some(tag)) = hand.next(QUEUE) {
        drop(tag);
    }
}

/// The last thread submits all tags. The first one waits for a time only, and the others sleep.
pub fn limit(scenario: Scenario) {
    let (pool, hands) = stage_queue(scenario);
    let held = take_sorted(&hands[scenario.threads - 1]);
    run_in_time(&hands, |me, hand| match me {
        1 => use_in_time(me, hand.next_timeout(QUEUE, LIMIT)),
        _ if me == scenario.threads => submit_all(held.take()),
        _ => use_it(me, hand.next_blocking(QUEUE)),
    });
    take_rest(&hands[0]);
    drop(held);
    drop(hands);
    close_queue(pool);
}

/// Takes tags until the pool is stopped.
fn take_until_stop<'a>(me: usize, next: impl Fn() -> Result<Tag<'a, usize>>) {
    loop {
        match next() {
            Err(Error::Stopped) => return,
            answer => use_it(me, answer),
        }
    }
}

/// The last thread submits all tags, and stops all waits. The others take tags so until then: all that were submitted.
fn stop_by<'a>(scenario: Scenario, pool: &Pool, hands: &'a [Hand], next: fn(&'a Hand) -> Result<Tag<'a, usize>>) {
    let held = take_sorted(&hands[scenario.threads - 1]);
    run(hands, |me, hand| {
        if me == scenario.threads {
            submit_all(held.take());
            pool.stop();
        } else {
            take_until_stop(me, || next(hand));
        }
    });
}

pub fn stop(scenario: Scenario) {
    let (pool, hands) = stage_queue(scenario);
    stop_by(scenario, &pool, &hands, |hand| hand.next_blocking(QUEUE));
    drop(hands);
    close_queue(pool);
}

pub fn stop_futures(scenario: Scenario) {
    let (pool, hands) = stage_queue(scenario);
    stop_by(scenario, &pool, &hands, |hand| wait_for(hand.next_async(QUEUE), None));
    drop(hands);
    close_queue(pool);
}

/// The first thread tries to take tags past the queue. The last one submits all of them, and the second one, which may be the
/// same, sleeps until it has each.
fn past_by(scenario: Scenario, try_past: fn(&Hand, usize)) {
    let (pool, hands) = stage_queue(scenario);
    let held = take_sorted(&hands[scenario.threads - 1]);
    let kept = RefCell::new(Vec::new());
    run(&hands, |me, hand| {
        if me == 1 {
            return (0..scenario.rounds).for_each(|_| try_past(hand, scenario.tags));
        }
        if me == scenario.threads {
            submit_all(held.take());
        }
        if me == 2 {
            let taken = (0..scenario.tags).map(|_| used(me, hand.next_blocking(QUEUE)));
            kept.borrow_mut().extend(taken);
        }
    });
    drop((held, kept));
    drop(hands);
    close_queue(pool);
}

fn expect_not_posted<R>(answer: Result<R>) {
    if !matches!(answer, Err(Error::NotPosted)) {
        fault("a tag was taken past its queue");
    }
}

/// One by one.
pub fn past(scenario: Scenario) {
    past_by(scenario, |hand, tags| {
        (0..tags as u32).for_each(|number| expect_not_posted(hand.take(number)));
    });
}

/// Together.
pub fn past_batch(scenario: Scenario) {
    past_by(scenario, |hand, tags| {
        expect_not_posted(hand.take_batch(Numbers::new(0, (1 << tags) - 1)));
    });
}

/// The first thread submits a tag, the second one takes the next one, and the last one submits two, and then submits the
/// next tag again, twice. So pushes and pops come to a slot whose former ones are not over.
pub fn lap(scenario: Scenario) {
    let (pool, hands) = stage_queue(scenario);
    let first = RefCell::new(hands[0].get().ok().flatten());
    let last = take_sorted(&hands[2]);
    run(&hands, |me, hand| match me {
        1 => submit_all(first.take().into_iter().collect()),
        2 => use_it(me, hand.next_blocking(QUEUE)),
        _ => {
            submit_all(last.take());
            for _ in 0..2 {
                submit_all(hand.next(QUEUE).ok().flatten().into_iter().collect());
            }
        }
    });
    take_rest(&hands[0]);
    drop((first, last));
    drop(hands);
    close_queue(pool);
}

/// There is a hand less than threads. Each thread waits for one, submits a tag, and takes the next one; then the hand leaves.
pub fn join_each(scenario: Scenario) {
    let pool = open(&Options {
        queues: 1,
        hands: scenario.threads as u32 - 1,
        ..scenario.options()
    });
    run(0..scenario.threads, |me, _| {
        let Ok(hand) = pool.join_blocking() else {
            fault("a wait ended otherwise");
        };
        submit_all(hand.get_blocking().into_iter().collect());
        use_it(me, hand.next_blocking(QUEUE));
    });
    close_queue(pool);
}

/// Over caches of one tag. The first thread gives a tag back, which it has at the start and its hand keeps, and sleeps for the
/// next tag of the queue, so often as there are others. These sleep for a tag, and submit it.
fn keep_by(scenario: Scenario, next: fn(&Hand) -> Result<Tag<'_, usize>>) {
    let (pool, hands) = stage(&Options {
        queues: 1,
        cache: 1,
        ..scenario.options()
    });
    let held = take_sorted(&hands[0]);
    run(&hands, |me, hand| {
        if me > 1 {
            return submit_all(hand.get_blocking().into_iter().collect());
        }
        drop(held.take());
        for _ in 1..scenario.threads {
            use_it(me, next(hand));
        }
        hand.flush();
    });
    drop(held);
    drop(hands);
    close_queue(pool);
}

pub fn keep(scenario: Scenario) {
    keep_by(scenario, |hand| hand.next_blocking(QUEUE));
}

pub fn keep_futures(scenario: Scenario) {
    keep_by(scenario, |hand| wait_for(hand.next_async(QUEUE), None));
}

/// Hands keep a tag while they hold another one. The first thread gives one of its tags back, so that its hand keeps it, and
/// submits the others, so that the kept one goes back, for which the others sleep. Then they take what is queued.
pub fn pass(scenario: Scenario) {
    let (pool, hands) = stage(&Options {
        queues: 1,
        cache: 1,
        keep_while_holding: true,
        ..scenario.options()
    });
    let held = take_sorted(&hands[0]);
    run(&hands, |me, hand| {
        if me == 1 {
            let mut tags = held.take();
            drop(tags.pop());
            return submit_all(tags);
        }
        use_it(me, hand.get_blocking());
        take_rest(hand);
    });
    take_rest(&hands[0]);
    drop(held);
    drop(hands);
    close_queue(pool);
}

/// The only future of the first thread is dropped, at any moment. If it has a tag, that is submitted again. The last thread
/// submits all tags, and the others sleep.
pub fn give_up(scenario: Scenario) {
    let (pool, hands) = stage_queue(scenario);
    let held = take_sorted(&hands[scenario.threads - 1]);
    run(&hands, |me, hand| match me {
        1 => {
            let mut future = hand.next_async(QUEUE);
            if let Poll::Ready(answer) = poll(&mut future, &Arc::default()) {
                submit(used(me, answer));
            }
        }
        _ if me == scenario.threads => submit_all(held.take()),
        _ => use_it(me, hand.next_blocking(QUEUE)),
    });
    drop(held);
    drop(hands);
    close_queue(pool);
}
