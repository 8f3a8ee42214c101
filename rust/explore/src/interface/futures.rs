//! Futures that wait for a tag.

use crate::base::word::AtomicU32;
use crate::error::Error;
use crate::future::GetAsync;
use crate::interface::{close, stage, take_all, use_it, Explored, Hand, SharedHand};
use crate::scenarios::Scenario;
use crate::sleep::Sleeper;
use crate::steps::{fault, run};
use std::cell::RefCell;
use std::future::Future;
use std::pin::Pin;
use std::sync::atomic::Ordering::SeqCst;
use std::sync::Arc;
use std::task::{Context, Poll, Wake};

/// The waker of one poll, and where a thread sleeps after it.
#[derive(Default)]
pub struct Called {
    word: AtomicU32,
    /// A hand that it uses before it wakes, as a waker may: for a tag, and for a future if there is a tag.
    hand: Option<SharedHand>,
}

impl Wake for Called {
    fn wake(self: Arc<Self>) {
        if let Some(hand) = &self.hand {
            let tag = hand.get();
            drop(poll(&mut hand.get_async(), &Arc::default()));
            drop(tag);
        }
        self.word.store(1, SeqCst);
        Explored.wake(&self.word);
    }
}

impl Called {
    fn wait(&self) {
        while self.word.load(SeqCst) == 0 {
            Explored.sleep(&self.word, 0, None);
        }
    }
}

pub fn poll<F: Future + Unpin>(future: &mut F, called: &Arc<Called>) -> Poll<F::Output> {
    let waker = Arc::clone(called).into();
    Pin::new(future).poll(&mut Context::from_waker(&waker))
}

/// Sleeps until a future is ready. Each poll has a waker of its own, which uses a hand if it has one.
pub fn wait_for<F: Future + Unpin>(mut future: F, hand: Option<&SharedHand>) -> F::Output {
    loop {
        let hand = hand.cloned();
        let called = Arc::new(Called {
            hand,
            ..Called::default()
        });
        match poll(&mut future, &called) {
            Poll::Ready(answer) => return answer,
            Poll::Pending => called.wait(),
        }
    }
}

/// Polls a future once, and uses its tag if it has one. Returns whether it has.
pub fn is_over(me: usize, future: &mut GetAsync<'_, usize>, called: &Arc<Called>) -> bool {
    match poll(future, called) {
        Poll::Ready(answer) => use_it(me, answer),
        Poll::Pending => return false,
    }
    true
}

/// Each thread waits for a future, and gives its tag back.
pub fn await_each(scenario: Scenario) {
    let (pool, hands) = stage(&scenario.options());
    run(&hands, |me, hand| {
        (0..scenario.rounds).for_each(|_| use_it(me, wait_for(hand.get_async(), None)));
    });
    drop(hands);
    close(pool);
}

/// The last thread gives back all tags, which it has at the start, and the first one uses its hand as it is told. The hand
/// stays afterwards, or leaves. The others wait for a future.
fn play(scenario: Scenario, stays: bool, first: impl Fn(&Hand)) {
    let (pool, mut hands) = stage(&scenario.options());
    let own = RefCell::new(Some(hands.remove(0)));
    let held = RefCell::new(take_all(&hands[scenario.threads - 2]));
    run(0..scenario.threads, |me, at| match me {
        1 => {
            let hand = own.take();
            hand.iter().for_each(&first);
            own.replace(hand.filter(|_| stays));
        }
        _ if me == scenario.threads => drop(held.take()),
        _ => use_it(me, wait_for(hands[at - 1].get_async(), None)),
    });
    drop(held);
    drop((hands, own));
    close(pool);
}

/// Two futures wait behind the first hand. The one that began first is dropped, at any moment, and the thread waits for the
/// other one to be woken.
pub fn cancel(scenario: Scenario) {
    play(scenario, true, |hand| {
        let [mut first, mut second] = [hand.get_async(), hand.get_async()];
        is_over(1, &mut first, &Arc::default());
        let called = Arc::default();
        let is_second_over = is_over(1, &mut second, &called);
        drop(first);
        if !is_second_over {
            called.wait();
            use_it(1, wait_for(second, None));
        }
    });
}

/// The only future of the first hand is dropped, at any moment.
pub fn give_up(scenario: Scenario) {
    play(scenario, true, |hand| {
        is_over(1, &mut hand.get_async(), &Arc::default());
    });
}

/// A future of the first hand is leaked, and the hand leaves.
pub fn leak(scenario: Scenario) {
    play(scenario, false, |hand| {
        let mut future = hand.get_async();
        is_over(1, &mut future, &Arc::default());
        std::mem::forget(future);
    });
}

/// The last thread gives back all tags, which it has at the start. The first one waits for a future, and the others sleep.
pub fn meet(scenario: Scenario) {
    let (pool, hands) = stage(&scenario.options());
    let held = RefCell::new(take_all(&hands[scenario.threads - 1]));
    run(&hands, |me, hand| match me {
        1 => use_it(me, wait_for(hand.get_async(), None)),
        _ if me == scenario.threads => drop(held.take()),
        _ => use_it(me, hand.get_blocking()),
    });
    drop(held);
    drop(hands);
    close(pool);
}

/// The only future of the first hand is polled once, and then neither polled nor dropped before the others have ended.
/// The last thread gives back all tags, which it has at the start, and then sleeps as the others do.
pub fn linger(scenario: Scenario) {
    let (pool, hands) = stage(&scenario.options());
    let held = RefCell::new(take_all(&hands[scenario.threads - 1]));
    let left = RefCell::new(None);
    run(&hands, |me, hand| {
        if me == 1 {
            let mut future = hand.get_async();
            is_over(me, &mut future, &Arc::default());
            left.replace(Some(future));
            return;
        }
        if me == scenario.threads {
            drop(held.take());
        }
        use_it(me, hand.get_blocking());
    });
    drop((held, left));
    drop(hands);
    close(pool);
}

/// The last thread has all tags, and stops all waits. The others wait for a future.
pub fn stop(scenario: Scenario) {
    let (pool, hands) = stage(&scenario.options());
    let held = take_all(&hands[scenario.threads - 1]);
    run(&hands, |me, hand| {
        if me == scenario.threads {
            pool.stop();
        } else if wait_for(hand.get_async(), None).err() != Some(Error::Stopped) {
            fault("a wait ended otherwise");
        }
    });
    drop(held);
    drop(hands);
    close(pool);
}

/// The same, but the last thread lets waits begin again and then gives all tags back, for those that do.
pub fn resume(scenario: Scenario) {
    let (pool, hands) = stage(&scenario.options());
    let held = RefCell::new(take_all(&hands[scenario.threads - 1]));
    run(&hands, |me, hand| {
        if me == scenario.threads {
            pool.stop();
            pool.resume();
            return drop(held.take());
        }
        match wait_for(hand.get_async(), None) {
            Err(Error::Stopped) => (),
            answer => use_it(me, answer),
        }
    });
    drop(held);
    drop(hands);
    close(pool);
}
