//! Gets of several tags, all of them or none.
use std::future::Future;
use std::pin::pin;
use std::sync::atomic::{AtomicUsize, Ordering::SeqCst};
use std::sync::Arc;
use std::task::{Context, Wake};
use std::thread;
use tags::{Error, Hand, Options, Pool, Shift, Tag};

/// Two reserved tags, then ten ordinary ones in words of four.
fn open() -> Pool {
    let options = Options {
        reserved: 2,
        shift: Shift::Of(2),
        ..Options::new(12, 2)
    };
    Pool::open(&options).unwrap()
}

fn busy(hand: &Hand) -> u32 {
    hand.busy(&mut [0]).unwrap()
}

fn numbers(tags: &[Tag]) -> Vec<u32> {
    let mut numbers: Vec<u32> = tags.iter().map(Tag::number).collect();
    numbers.sort_unstable();
    numbers
}

#[test]
fn as_many_tags_are_taken_as_asked_for() {
    let pool = open();
    let (hand, other) = (pool.join_in_place().unwrap(), pool.join_in_place().unwrap());
    let six = hand.get_many(6).unwrap().unwrap();
    assert_eq!(numbers(&six), [2, 3, 4, 5, 6, 7]);
    let four = other.get_many(4).unwrap().unwrap();
    assert_eq!(numbers(&four), [8, 9, 10, 11]);
    drop((six, four));
    assert_eq!(busy(&hand), 0);
    drop((hand, other));
    let totals = pool.close().unwrap();
    assert_eq!((totals.got, totals.back, totals.held), (10, 10, 0));
}

#[test]
fn too_few_tags_are_left_to_others() {
    let pool = open();
    let (hand, other) = (pool.join_in_place().unwrap(), pool.join_in_place().unwrap());
    let six = hand.get_many(6).unwrap().unwrap();
    assert!(other.get_many(5).unwrap().is_none());
    assert_eq!(busy(&hand), 6);
    assert!(other.get_many(4).unwrap().is_some());
    drop(six);
    drop((hand, other));
    let totals = pool.close().unwrap();
    assert_eq!((totals.got, totals.back, totals.held), (14, 14, 0));
}

#[test]
fn no_tags_and_more_than_all_ordinary_ones_are_refused() {
    let pool = open();
    let hand = pool.join_in_place().unwrap();
    for n in [0, 11, 10_240, 10_241, u32::MAX] {
        assert_eq!(hand.get_many(n).unwrap_err(), Error::BadCount);
    }
    assert_eq!(busy(&hand), 0);
    assert_eq!(hand.get_many(10).unwrap().unwrap().len(), 10);
}

#[test]
fn a_kept_tag_is_not_taken() {
    let options = Options {
        cache: 2,
        ..Options::new(4, 1)
    };
    let pool = Pool::open(&options).unwrap();
    let hand = pool.join_in_place().unwrap();
    let zero = hand.get().unwrap();
    drop(hand.get().unwrap());
    assert!(hand.get_many(3).unwrap().is_none());
    let two = hand.get_many(2).unwrap().unwrap();
    assert_eq!(numbers(&two), [2, 3]);
    assert_eq!(hand.get().unwrap().unwrap().number(), 1);
    drop(two);
    hand.flush();
    assert_eq!(numbers(&hand.get_many(3).unwrap().unwrap()), [1, 2, 3]);
    drop(zero);
}

#[derive(Default)]
struct Count(AtomicUsize);

impl Wake for Count {
    fn wake(self: Arc<Self>) {
        self.0.fetch_add(1, SeqCst);
    }
}

#[test]
fn whoever_waits_is_told_of_what_was_taken_in_vain() {
    let pool = Pool::open(&Options::new(2, 4)).unwrap();
    let [holder, first, second, hand] = [(); 4].map(|()| pool.join_in_place().unwrap());
    let mut held = holder.get_many(2).unwrap().unwrap();
    let counts = [(); 2].map(|()| Arc::new(Count::default()));
    let wakers = counts.clone().map(std::task::Waker::from);
    let mut waits = [pin!(first.get_async()), pin!(second.get_async())];
    for (wait, waker) in waits.iter_mut().zip(&wakers) {
        assert!(wait.as_mut().poll(&mut Context::from_waker(waker)).is_pending());
    }
    held.pop();
    let told = || counts.each_ref().map(|it| it.0.load(SeqCst));
    assert_eq!(told(), [1, 0]);
    assert!(hand.get_many(2).unwrap().is_none());
    assert_eq!(told(), [1, 1]);
}

/// Threads that want more tags together than there are.
#[test]
fn no_tag_has_two_users() {
    const TAGS: u32 = 8;
    let pool = Pool::open_with(&Options::new(TAGS, 4), |_| 0u64).unwrap();
    let uses = thread::scope(|scope| {
        let work = |me: u64| {
            let hand = pool.join().unwrap();
            let mut uses = 0;
            for round in 0..3000 {
                let Some(mut tags) = hand.get_many(1 + round % 5).unwrap() else {
                    thread::yield_now();
                    continue;
                };
                tags.iter_mut().for_each(|tag| *tag.value_mut() += me);
                uses += me * tags.len() as u64;
            }
            uses
        };
        let threads = [1, 2, 3, 4].map(|me| scope.spawn(move || work(me)));
        threads.map(|it| it.join().unwrap()).iter().sum::<u64>()
    });
    let hand = pool.join().unwrap();
    let all = hand.get_many(TAGS).unwrap().unwrap();
    assert_eq!(all.iter().map(|tag| *tag.value()).sum::<u64>(), uses);
}
