//! Threads that wait in each way at once, for tags of both sets, and give up at random. The tag's value names its user, so two would be seen,
//! and a lost wakeup would be a thread that sleeps for ever.
use std::future::Future;
use std::mem::replace;
use std::pin::Pin;
use std::sync::Arc;
use std::task::{Context, Poll, Wake, Waker};
use std::thread::{self, Thread};
use std::time::Duration;
use tags::{Error, Options, Pool, Result};

const TURNS: u32 = 1_500;

struct Random(u64);

impl Random {
    fn below(&mut self, bound: u64) -> u64 {
        self.0 = self.0.wrapping_mul(6_364_136_223_846_793_005).wrapping_add(1);
        (self.0 >> 33) % bound
    }
}

struct Unpark(Thread);

impl Wake for Unpark {
    fn wake(self: Arc<Self>) {
        self.0.unpark();
    }
}

/// Polls a future until it is ready, or up to so many times, and then drops it.
fn poll<T>(mut future: impl Future<Output = Result<T>> + Unpin, polls: u64) -> Result<Option<T>> {
    let waker = Waker::from(Arc::new(Unpark(thread::current())));
    for left in (0..polls).rev() {
        let answer = Pin::new(&mut future).poll(&mut Context::from_waker(&waker));
        match answer {
            Poll::Ready(tag) => return tag.map(Some),
            Poll::Pending if left > 0 => thread::park(),
            Poll::Pending => thread::yield_now(),
        }
    }
    Ok(None)
}

/// The turns of a thread, with a hand of its own or one that is shared.
macro_rules! take_turns {
    ($hand:expr, $number:expr) => {{
        let (hand, mut random) = ($hand, Random($number));
        for _ in 0..TURNS {
            let tag = match random.below(10) {
                0 => hand.get(),
                1 => hand.get_blocking().map(Some),
                2 => hand.get_timeout(Duration::from_micros(random.below(200))),
                3 => poll(hand.get_async(), 1),
                4 => poll(hand.get_async(), u64::MAX),
                5 => poll(hand.get_async(), 1 + random.below(2)),
                6 => hand.get_reserved(),
                7 => hand.get_reserved_blocking().map(Some),
                8 => hand.get_reserved_timeout(Duration::from_micros(random.below(200))),
                _ => poll(hand.get_reserved_async(), 1 + random.below(3)),
            };
            let Some(mut tag) = tag.unwrap() else {
                continue;
            };
            assert_eq!(replace(tag.value_mut(), $number), 0);
            if random.below(2) == 0 {
                thread::yield_now();
            }
            if random.below(3) == 0 {
                let number = tag.into_number();
                tag = hand.claim(number).unwrap();
                assert_eq!(hand.claim(number).unwrap_err(), Error::NotHeld);
            }
            if random.below(3) == 0 {
                tag = hand.take(tag.post()).unwrap();
            }
            assert_eq!(replace(tag.value_mut(), 0), $number);
        }
    }};
}

fn run(tags: u32) {
    let options = Options {
        reserved: 1,
        ..Options::new(1 + tags, 5)
    };
    let pool = Pool::open_with(&options, |_| 0).unwrap();
    let shared = pool.join().unwrap().into_shared();
    thread::scope(|scope| {
        for number in 1..5 {
            let hand = pool.join().unwrap();
            scope.spawn(move || take_turns!(hand, number));
        }
        for number in 5..9 {
            let hand = shared.clone();
            scope.spawn(move || take_turns!(hand, number));
        }
    });
    assert_eq!(shared.waiting(), 0);
    drop(shared);
    let totals = pool.close().unwrap();
    assert_eq!((totals.got, totals.held, totals.posted), (totals.back, 0, 0));
}

#[test]
fn on_one_tag() {
    run(1);
}

#[test]
fn on_three_tags() {
    run(3);
}
