//! As many threads as tags: in each round every thread gets a tag, meets the others, and gives its tag back. If a
//! wakeup is lost, no other round ends.
use std::future::Future;
use std::pin::pin;
use std::sync::{Arc, Barrier};
use std::task::{Context, Poll, Wake, Waker};
use std::thread::{self, Thread};
use std::time::Duration;
use tags::{Hand, Options, Pool, SharedHand, Shift};

const ROUNDS: u32 = 4000;

struct Unpark(Thread);

impl Wake for Unpark {
    fn wake(self: Arc<Self>) {
        self.0.unpark();
    }
}

fn block_on<T>(future: impl Future<Output = T>) -> T {
    let waker = Waker::from(Arc::new(Unpark(thread::current())));
    let mut future = pin!(future);
    loop {
        match future.as_mut().poll(&mut Context::from_waker(&waker)) {
            Poll::Ready(value) => return value,
            Poll::Pending => thread::park(),
        }
    }
}

/// Gets a tag in each round, and gives it back once all threads have one.
fn attend<T>(meeting: &Barrier, mut get: impl FnMut() -> T) {
    for _ in 0..ROUNDS {
        let tag = get();
        meeting.wait();
        drop(tag);
        meeting.wait();
    }
}

/// The four ways to wait with a hand of one's own.
fn attend_alone(meeting: &Barrier, hand: &Hand, way: usize) {
    let long = Duration::from_secs(3600);
    match way % 3 {
        0 => attend(meeting, || hand.get_blocking().unwrap()),
        1 => attend(meeting, || hand.get_timeout(long).unwrap().unwrap()),
        _ => attend(meeting, || block_on(hand.get_async()).unwrap()),
    }
}

fn attend_together(meeting: &Barrier, hand: &SharedHand, way: usize) {
    match way % 2 {
        0 => attend(meeting, || hand.get_blocking().unwrap()),
        _ => attend(meeting, || block_on(hand.get_async()).unwrap()),
    }
}

fn run(options: Options, ways: [usize; 2]) {
    let tags = options.total as usize;
    let pool = Pool::open(&Options {
        hands: options.total + 1,
        ..options
    });
    let pool = pool.unwrap();
    let (meeting, shared) = (Barrier::new(tags), pool.join().unwrap().into_shared());
    thread::scope(|scope| {
        for number in 0..tags {
            let (hand, shared, meeting) = (pool.join().unwrap(), shared.clone(), &meeting);
            let way = ways[number % 2];
            scope.spawn(move || match way {
                3.. => attend_together(meeting, &shared, way),
                _ => attend_alone(meeting, &hand, way),
            });
        }
    });
    drop(shared);
    let totals = pool.close().unwrap();
    assert_eq!(totals.got, totals.back);
}

#[test]
fn threads_that_sleep_meet() {
    run(Options::new(3, 0), [0, 0]);
    let shift = Shift::Of(1);
    run(
        Options {
            shift,
            ..Options::new(8, 0)
        },
        [0, 1],
    );
}

#[test]
fn futures_meet() {
    run(Options::new(3, 0), [2, 2]);
    let shift = Shift::Of(3);
    run(
        Options {
            shift,
            ..Options::new(8, 0)
        },
        [2, 2],
    );
}

#[test]
fn futures_meet_threads_that_sleep() {
    run(Options::new(4, 0), [0, 2]);
    let cache = 1;
    run(
        Options {
            cache,
            ..Options::new(4, 0)
        },
        [1, 2],
    );
}

#[test]
fn those_who_share_a_hand_meet() {
    run(Options::new(3, 0), [3, 4]);
    run(Options::new(6, 0), [3, 0]);
    let careful = Options {
        cache: 2,
        keep_while_holding: true,
        ..Options::new(5, 0)
    };
    run(careful, [4, 2]);
}
