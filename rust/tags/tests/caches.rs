//! Tags that hands keep for their next gets.
use std::future::Future;
use std::pin::pin;
use std::sync::atomic::{AtomicUsize, Ordering::SeqCst};
use std::sync::Arc;
use std::task::{Context, Poll, Wake};
use std::thread;
use tags::{Error, Kind, Options, Pool};

fn open(total: u32, hands: u32, cache: u32) -> Pool {
    let options = Options {
        cache,
        ..Options::new(total, hands)
    };
    Pool::open(&options).unwrap()
}

fn number(hand: &tags::Hand) -> Option<u32> {
    hand.get().unwrap().map(|tag| tag.into_number())
}

#[test]
fn a_kept_tag_is_busy_until_a_flush() {
    let pool = open(2, 2, 2);
    let (first, second) = (pool.join_in_place().unwrap(), pool.join_in_place().unwrap());
    let mut bits = [0];
    drop(first.get().unwrap());
    assert_eq!(first.holds(0), Ok(false));
    assert_eq!(second.busy(&mut bits), Ok(1));
    assert_eq!(number(&second), Some(1));
    assert_eq!(number(&second), None);
    first.flush();
    assert_eq!(number(&second), Some(0));
    assert_eq!(second.show(Kind::Ordinary).busy, 2);
    drop((second.claim(0), second.claim(1)));
    drop((first, second));
    pool.resize(3).unwrap();
    let totals = pool.close().unwrap();
    assert_eq!((totals.got, totals.back, totals.held), (3, 3, 0));
}

#[test]
fn a_kept_tag_is_free_for_its_hand_alone() {
    let pool = open(4, 2, 2);
    let (hand, other) = (pool.join_in_place().unwrap(), pool.join_in_place().unwrap());
    drop(hand.get_exactly(3).unwrap());
    assert!(other.get_exactly(3).unwrap().is_none());
    let tag = hand.get_exactly(3).unwrap().unwrap();
    assert_eq!((tag.number(), tag.write(7)), (3, 0));
    assert!(hand.get_exactly(3).unwrap().is_none());
    drop(tag);
    hand.flush();
    assert_eq!(other.get_exactly(3).unwrap().map(|tag| tag.number()), Some(3));
}

/// Threads ask for two given tags, which a hand may keep.
#[test]
fn a_given_tag_has_one_holder() {
    for cache in [0, 2] {
        let pool = open(4, 8, cache);
        let held = [AtomicUsize::new(0), AtomicUsize::new(0)];
        let won = AtomicUsize::new(0);
        thread::scope(|scope| {
            for _ in 0..8 {
                scope.spawn(|| {
                    let hand = pool.join().unwrap();
                    for round in 0..5_000 {
                        let at = round % 2;
                        let Some(tag) = hand.get_exactly(1 + at as u32).unwrap() else {
                            hand.flush();
                            continue;
                        };
                        assert_eq!((tag.number(), held[at].fetch_add(1, SeqCst)), (1 + at as u32, 0));
                        held[at].fetch_sub(1, SeqCst);
                        won.fetch_add(1, SeqCst);
                    }
                });
            }
        });
        let totals = pool.close().unwrap();
        assert!(won.into_inner() > 0 && totals.got == totals.back);
    }
}

#[test]
fn a_cache_has_a_limit() {
    let large = Options {
        cache: 65,
        ..Options::new(1, 1)
    };
    assert_eq!(Pool::open(&large).unwrap_err(), Error::CacheTooLarge);
}

#[test]
fn a_careful_hand_keeps_nothing_once_it_holds_nothing() {
    let options = Options {
        cache: 4,
        keep_while_holding: true,
        ..Options::new(4, 2)
    };
    let pool = Pool::open(&options).unwrap();
    let (hand, other) = (pool.join().unwrap(), pool.join().unwrap());
    let mut bits = [0];
    let (one, two) = (hand.get_blocking().unwrap(), hand.get_blocking().unwrap());
    drop(one);
    assert_eq!(other.busy(&mut bits), Ok(2));
    drop(two);
    assert_eq!(other.busy(&mut bits), Ok(0));
    let (one, two) = (hand.get_blocking().unwrap(), hand.get_blocking().unwrap());
    drop(one);
    let posted = two.post();
    assert_eq!(other.busy(&mut bits), Ok(1));
    drop(other.take(posted).unwrap());
}

struct Told(AtomicUsize);

impl Wake for Told {
    fn wake(self: Arc<Self>) {
        self.0.fetch_add(1, SeqCst);
    }
}

#[test]
fn a_flush_tells_a_future() {
    let pool = open(1, 2, 1);
    let (hand, other) = (pool.join().unwrap(), pool.join().unwrap());
    drop(hand.get().unwrap());
    let told = Arc::new(Told(AtomicUsize::new(0)));
    let waker = Arc::clone(&told).into();
    let mut context = Context::from_waker(&waker);
    let mut future = pin!(other.get_async());
    assert!(future.as_mut().poll(&mut context).is_pending());
    hand.flush();
    assert_eq!(told.0.load(SeqCst), 1);
    let Poll::Ready(Ok(tag)) = future.as_mut().poll(&mut context) else {
        panic!("the tag that went back is not found");
    };
    assert_eq!(tag.number(), 0);
}

/// More threads than tags, each of which holds two at a time and keeps some while it does: none sleeps for ever.
#[test]
fn nobody_sleeps_for_ever() {
    for keep_while_holding in [false, true] {
        let options = Options {
            cache: 3,
            keep_while_holding,
            ..Options::new(9, 8)
        };
        let pool = Pool::open(&options).unwrap();
        thread::scope(|scope| {
            for hand in (0..8).map(|_| pool.join().unwrap()) {
                scope.spawn(move || {
                    for _ in 0..500 {
                        let one = hand.get_blocking().unwrap();
                        let two = hand.get_blocking().unwrap();
                        drop(two);
                        let three = hand.get_blocking().unwrap();
                        drop((one, three));
                    }
                });
            }
        });
        let totals = pool.close().unwrap();
        assert_eq!((totals.got, totals.held), (totals.back, 0));
    }
}
