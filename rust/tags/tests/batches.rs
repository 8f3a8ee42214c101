//! Tags that are posted and taken together: all of them or none, with their slots and their values.
use asleep::Asleep;
use std::thread;
use tags::{Batch, Error, Hand, Numbers, Options, Pool, Shift};

mod asleep;

/// Two reserved tags, then ten ordinary ones in words of four.
fn open() -> Pool<u64> {
    let options = Options {
        reserved: 2,
        shift: Shift::Of(2),
        ..Options::new(12, 2)
    };
    Pool::open_with(&options, u64::from).unwrap()
}

fn busy<T>(hand: &Hand<T>) -> u32 {
    hand.busy(&mut [0]).unwrap()
}

fn held(hand: &Hand<u64>) -> Vec<u32> {
    (0..12).filter(|it| hand.holds(*it).unwrap()).collect()
}

#[test]
fn a_batch_goes_to_another_hand() {
    let pool = open();
    let (hand, other) = (pool.join_in_place().unwrap(), pool.join().unwrap());
    let mut batch = hand.get_batch(4).unwrap().unwrap();
    let first = batch.pop().unwrap();
    for number in batch.numbers() {
        assert!(batch.write(number, u64::from(number) * 10).is_some());
        *batch.value_mut(number).unwrap() += 100;
    }
    assert_eq!((batch.read(first.number()), batch.write(6, 1)), (None, None));
    let numbers = batch.post();
    assert_eq!(format!("{numbers:?}"), "[3, 4, 5]");
    assert_eq!((numbers.first(), numbers.mask()), (2, 14));
    assert_eq!((held(&hand), held(&other)), (vec![2], vec![]));
    let taken = other.take_batch(numbers).unwrap();
    assert!(taken.numbers().eq(numbers.iter()));
    assert_eq!((taken.read(4), taken.value(4)), (Some(40), Some(&104)));
    drop((taken, first));
    assert_eq!(busy(&hand), 0);
    drop((hand, other));
    let totals = pool.close().unwrap();
    assert_eq!((totals.got, totals.back, totals.posted), (4, 4, 0));
}

#[test]
fn what_was_posted_apart_is_taken_together() {
    let pool = open();
    let (hand, other) = (pool.join_in_place().unwrap(), pool.join().unwrap());
    let one = hand.get_batch(2).unwrap().unwrap().post();
    let another = hand.get_blocking().unwrap().post();
    assert_eq!((one.first(), one.mask(), another), (2, 3, 4));
    assert_eq!(other.take(2).unwrap().post(), 2);
    let mut all = other.take_batch(Numbers::new(0, 0b1_1100)).unwrap();
    assert_eq!(all.pop().unwrap().into_number(), 2);
    assert!(all.into_tags().map(|it| it.number()).eq([3, 4]));
    assert_eq!(held(&other), [2]);
    drop(other.claim(2).unwrap());
    assert_eq!(busy(&hand), 0);
}

#[test]
fn a_refused_take_changes_nothing() {
    let pool = open();
    let (hand, other) = (pool.join_in_place().unwrap(), pool.join().unwrap());
    let posted = hand.get_batch(3).unwrap().unwrap().post();
    let kept = hand.get_blocking().unwrap();
    let reserved = hand.get_reserved().unwrap().unwrap().post();
    let refusals = [
        (0, 0, Error::BadCount),
        (u32::MAX, 0, Error::BadCount),
        (0, 0b1_1101, Error::NoSuchTag),
        (2, 0x407, Error::NoSuchTag),
        (u32::MAX - 1, 1 << 4, Error::NoSuchTag),
        (2, 0b1111, Error::NotPosted),
        (2, 0x107, Error::NotPosted),
    ];
    for (first, mask, why) in refusals {
        let numbers = Numbers::new(first, mask);
        assert_eq!(other.take_batch(numbers).unwrap_err(), why);
        assert_eq!((busy(&hand), held(&other)), (5, vec![]));
    }
    assert_eq!((reserved, kept.number()), (0, 5));
    assert!(other.take_batch(posted).is_ok() && other.take(reserved).is_ok());
}

#[test]
fn numbers_say_which_they_are() {
    let numbers = Numbers::new(60, 0b1001);
    assert!(numbers.has(60) && numbers.has(63) && !numbers.has(61) && !numbers.has(59));
    assert!(!numbers.has(124) && !Numbers::default().has(0));
    assert!(Numbers::new(u32::MAX, 3).iter().eq([u32::MAX]));
}

#[test]
fn what_is_left_of_a_batch_goes_back_as_one() {
    let pool = open();
    let hand = pool.join_in_place().unwrap();
    let mut batch = hand.get_batch(4).unwrap().unwrap();
    let third = batch.remove(4).unwrap();
    assert!(batch.remove(4).is_none() && batch.remove(6).is_none());
    assert!((third.number(), busy(&hand)) == (4, 4) && batch.numbers().eq([2, 3, 5]));
    drop(third);
    assert_eq!((busy(&hand), batch.has(4), batch.read(4)), (3, false, None));
    let mut tags = batch.into_tags();
    let first = tags.next();
    drop(tags);
    assert_eq!((busy(&hand), first.map(|tag| tag.number())), (1, Some(2)));
    assert_eq!(busy(&hand), 0);
}

#[test]
fn an_empty_batch_posts_nothing() {
    let pool = open();
    let hand = pool.join_in_place().unwrap();
    let mut batch = hand.get_batch(1).unwrap().unwrap();
    drop(batch.pop());
    let numbers = batch.post();
    assert_eq!((numbers.mask(), busy(&hand)), (0, 0));
    assert_eq!(hand.take_batch(numbers).unwrap_err(), Error::BadCount);
}

/// A post that finds somebody waiting gives back what the hand keeps.
#[test]
fn whoever_waits_is_told_of_a_kept_tag() {
    static ASLEEP: Asleep = Asleep::new();
    let options = Options {
        shift: Shift::Of(2),
        cache: 2,
        ..Options::new(4, 2)
    };
    let pool = Pool::open_with_sleeper(&options, &ASLEEP, |_| ()).unwrap();
    let (hand, waiter) = (pool.join_in_place().unwrap(), pool.join().unwrap());
    let batch = hand.get_batch(3).unwrap().unwrap();
    drop(hand.get().unwrap().unwrap());
    assert_eq!(busy(&hand), 4);
    // A post before the other hand waits leaves the kept tag where it is.
    let numbers = batch.post();
    let sleeper = thread::spawn(move || waiter.get_blocking().map(|tag| tag.number()));
    ASLEEP.wait_for(1);
    let numbers = hand.take_batch(numbers).unwrap().post();
    assert_eq!(sleeper.join().unwrap(), Ok(3));
    assert!(hand.take_batch(numbers).is_ok());
}

/// Adds 1 to the value of each tag, and to its slot.
fn use_all(mut batch: Batch<'_, u64>) -> Numbers {
    let numbers: Vec<u32> = batch.numbers().collect();
    for number in numbers {
        let value = batch.value_mut(number).unwrap();
        *value += 1;
        let used = *value;
        assert_eq!(batch.write(number, used), Some(used - 1));
    }
    batch.post()
}

fn take_when_posted(hand: &Hand<u64>, mask: u64) -> Batch<'_, u64> {
    loop {
        match hand.take_batch(Numbers::new(0, mask)) {
            Ok(batch) => return batch,
            Err(error) => assert_eq!(error, Error::NotPosted),
        }
        thread::yield_now();
    }
}

/// Threads take masks that overlap, of tags that are all posted.
#[test]
fn no_tag_has_two_users() {
    const ROUNDS: u64 = 2_000;
    const MASKS: [u64; 4] = [0xff, 0x0f, 0xf8, 0x99];
    let pool = Pool::open_with(&Options::new(8, 4), |_| 0).unwrap();
    let hands = MASKS.map(|_| pool.join_in_place().unwrap());
    while let Some(tag) = hands[0].get().unwrap() {
        tag.write(0);
        assert!(tag.post() < 8);
    }
    thread::scope(|scope| {
        for (hand, mask) in hands.into_iter().zip(MASKS) {
            scope.spawn(move || {
                for _ in 0..ROUNDS {
                    assert_eq!(use_all(take_when_posted(&hand, mask)).mask(), mask);
                }
            });
        }
    });
    let hand = pool.join().unwrap();
    let all = hand.take_batch(Numbers::new(0, 0xff)).unwrap();
    for number in all.numbers() {
        let users = MASKS.iter().filter(|it| *it >> number & 1 == 1).count();
        assert_eq!(all.value(number), Some(&(users as u64 * ROUNDS)));
    }
}
