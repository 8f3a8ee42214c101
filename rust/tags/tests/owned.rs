//! Tags that keep their hand alive, and the hand that they share.
use std::sync::Barrier;
use std::thread;
use std::time::{Duration, Instant};
use tags::{Error, Options, OwnedTag, Pool, SharedHand};

fn open(total: u32, hands: u32) -> Pool {
    Pool::open(&Options::new(total, hands)).unwrap()
}

fn join(pool: &Pool) -> SharedHand {
    pool.join_in_place().unwrap().into_shared()
}

#[test]
fn a_tag_keeps_its_hand_and_goes_back_on_any_thread() {
    let pool = open(4, 1);
    let hand = join(&pool);
    let tags: Vec<OwnedTag> = (0..3).map(|_| hand.get().unwrap().unwrap()).collect();
    drop(hand);
    assert_eq!(pool.join().unwrap_err(), Error::NoHand);
    for (number, tag) in tags.into_iter().enumerate() {
        tag.write(70 + number as u64);
        let returned = thread::spawn(move || {
            assert_eq!((tag.number(), tag.read()), (number as u32, tag.write(0)));
            drop(tag);
        });
        returned.join().unwrap();
    }
    assert!(pool.join().is_ok());
    let totals = pool.close().unwrap();
    assert_eq!((totals.got, totals.back), (3, 3));
}

/// In whichever order they are dropped, also where a tag makes a new handle after the others are gone.
#[test]
fn a_hand_goes_back_with_the_last_of_its_handles_and_tags() {
    const TAGS: usize = 3;
    let pool = open(TAGS as u32, 1);
    for round in 0..2000 {
        let hand = join(&pool);
        let tags: Vec<OwnedTag> = (0..TAGS).map(|_| hand.get().unwrap().unwrap()).collect();
        let begin = Barrier::new(TAGS + 1);
        thread::scope(|threads| {
            for (number, tag) in tags.into_iter().enumerate() {
                let begin = &begin;
                threads.spawn(move || {
                    begin.wait();
                    let handle = tag.hand().clone();
                    if (round + number) % 2 == 0 {
                        let _ = tag.into_number();
                    } else {
                        drop(tag);
                    }
                    drop(handle);
                });
            }
            begin.wait();
            drop(hand);
        });
        let hand = join(&pool);
        (0..TAGS as u32).for_each(|number| hand.claim(number).map_or((), drop));
    }
    let totals = pool.close().unwrap();
    assert_eq!((totals.got, totals.held), (totals.back, 0));
}

#[test]
fn no_number_makes_two_tags() {
    let pool = open(4, 2);
    let (hand, other) = (join(&pool), join(&pool));
    let tag = hand.get().unwrap().unwrap();
    assert_eq!(hand.claim(0).unwrap_err(), Error::NotHeld);
    assert_eq!((hand.holds(0), other.holds(0)), (Ok(true), Ok(false)));
    assert_eq!(tag.into_number(), 0);
    assert_eq!(other.claim(0).unwrap_err(), Error::NotHeld);
    let tag = hand.claim(0).unwrap();
    assert_eq!(hand.claim(0).unwrap_err(), Error::NotHeld);
    assert_eq!(tag.post(), 0);
    assert_eq!(hand.claim(0).unwrap_err(), Error::NotHeld);
    let tag = other.take(0).unwrap();
    assert_eq!(hand.get_exactly(4).unwrap_err(), Error::NoSuchTag);
    assert_eq!(hand.take(0).unwrap_err(), Error::NotPosted);
    assert_eq!(tag.hand().claim(0).unwrap_err(), Error::NotHeld);
    drop(tag);
    assert_eq!(other.claim(0).unwrap_err(), Error::NotHeld);
    assert_eq!(hand.claim(u32::MAX).unwrap_err(), Error::NotHeld);
}

#[test]
fn threads_wait_with_one_hand() {
    let pool = open(2, 2);
    let (hand, own) = (join(&pool), pool.join().unwrap());
    thread::scope(|scope| {
        for _ in 0..4 {
            let hand = hand.clone();
            scope.spawn(move || {
                for _ in 0..500 {
                    let tag = hand.get_blocking().unwrap();
                    thread::yield_now();
                    drop(tag);
                }
            });
        }
        for _ in 0..500 {
            drop(own.get_blocking().unwrap());
        }
    });
    assert_eq!(hand.waiting(), 0);
    drop((hand, own));
    assert_eq!(pool.close().unwrap().back, 2_500);
}

#[test]
fn a_wait_ends_in_time() {
    let pool = open(1, 1);
    let hand = join(&pool);
    let tag = hand.get_timeout(Duration::MAX).unwrap();
    let (begin, time) = (Instant::now(), Duration::from_millis(5));
    assert!(hand.get_timeout(time).unwrap().is_none() && begin.elapsed() >= time);
    assert!(hand.get_timeout(Duration::ZERO).unwrap().is_none());
    assert_eq!(hand.waiting(), 0);
    drop(tag);
    assert!(hand.get_timeout(Duration::ZERO).unwrap().is_some());
}

#[test]
fn each_kind_of_get_is_refused_as_that_of_a_hand() {
    let pool = open(4, 1);
    let hand = join(&pool);
    assert_eq!(hand.get_reserved().unwrap_err(), Error::NoReserved);
    assert_eq!(hand.get_shallow(0).unwrap_err(), Error::TooShallow);
    assert_eq!(hand.take(0).unwrap_err(), Error::NotPosted);
    assert_eq!(hand.holds(4).unwrap_err(), Error::NoSuchTag);
    assert_eq!(hand.busy(&mut []).unwrap_err(), Error::TooSmall);
}
