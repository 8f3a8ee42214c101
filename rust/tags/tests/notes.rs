//! Notes: which of them a report has, of whom, and threads that publish notes beside others that read them. Each note that
//! was read is compared afterwards with what its holder did.
use std::sync::atomic::{AtomicBool, AtomicUsize, Ordering::SeqCst};
use std::sync::Mutex;
use std::thread;
use std::time::Duration;
use tags::{default_sleeper, Error, Hand, Note, Options, Pool, SharedHands};

const ROUNDS: u64 = 3000;

fn options(total: u32, hands: u32) -> Options {
    Options {
        notes: true,
        ..Options::new(total, hands)
    }
}

fn now() -> Duration {
    default_sleeper().now()
}

/// The busy tags with the values of their notes.
fn noted(pool: &Pool) -> Vec<(u32, Option<u64>)> {
    let all = pool.noted_tags().unwrap();
    all.map(|(tag, note)| (tag, note.map(|it| it.value))).collect()
}

#[test]
fn a_note_lasts_as_long_as_its_use() -> tags::Result<()> {
    let pool = Pool::open(&options(4, 2))?;
    let (hand, other) = (pool.join()?, pool.join()?);
    let tag = hand.get_exactly(1)?.unwrap();
    assert_eq!(noted(&pool), [(1, None)]);
    let before = now();
    tag.note(7)?;
    let Some((1, Some(note))) = pool.noted_tags()?.next() else {
        panic!("there is no note")
    };
    assert!(note.value == 7 && before <= note.since && note.since <= now());
    tag.note(0)?;
    assert_eq!(noted(&pool), [(1, Some(0))]);
    let number = tag.post();
    assert_eq!(noted(&pool), [(1, Some(0))]);
    let tag = other.take(number)?;
    tag.note(8)?;
    let number = tag.into_number();
    drop(other);
    assert_eq!(noted(&pool), [(1, Some(8))]);
    let other = pool.join()?;
    drop(other.claim(number)?);
    assert_eq!(noted(&pool), []);
    let again = hand.get_exactly(1)?;
    assert_eq!(noted(&pool), [(1, None)]);
    drop(again);
    Ok(())
}

#[test]
fn a_kept_tag_has_no_note() -> tags::Result<()> {
    let pool = Pool::open(&Options {
        cache: 4,
        ..options(8, 1)
    })?;
    let hand = pool.join()?;
    let tag = hand.get_blocking()?;
    tag.note(1)?;
    drop(tag);
    assert_eq!(noted(&pool), [(0, None)]);
    let tag = hand.get_blocking()?;
    assert_eq!((tag.number(), noted(&pool)), (0, vec![(0, None)]));
    drop(tag);
    hand.flush();
    assert_eq!(noted(&pool), []);
    Ok(())
}

#[test]
fn notes_of_batches_and_owned_tags_end_too() -> tags::Result<()> {
    let pool = Pool::open(&Options {
        reserved: 1,
        ..options(65, 3)
    })?;
    let hand = pool.join()?;
    let mut batch = hand.get_batch(3)?.unwrap();
    for number in batch.numbers().collect::<Vec<_>>() {
        batch.note(number, u64::from(number) * 10)?;
    }
    assert_eq!(batch.note(9, 1), Err(Error::NoSuchTag));
    drop(batch.pop());
    assert_eq!(noted(&pool), [(2, Some(20)), (3, Some(30))]);
    let posted = batch.post();
    assert_eq!(noted(&pool), [(2, Some(20)), (3, Some(30))]);
    drop(hand.take_batch(posted)?);
    assert_eq!(noted(&pool), []);
    let reserved = hand.get_reserved()?.unwrap();
    reserved.note(5)?;
    let hands = pool.share(2)?;
    let owned = hands.get_blocking()?;
    owned.note(6)?;
    assert_eq!(noted(&pool), [(0, Some(5)), (owned.number(), Some(6))]);
    thread::spawn(move || drop(owned)).join().unwrap();
    drop(reserved);
    assert_eq!(noted(&pool), []);
    Ok(())
}

#[test]
fn notes_are_asked_for_at_open_and_follow_a_resize() -> tags::Result<()> {
    let plain = Pool::open(&Options::new(4, 1))?;
    let hand = plain.join()?;
    assert_eq!(hand.get_blocking()?.note(1), Err(Error::NoNotes));
    assert_eq!(hand.get_batch(1)?.unwrap().note(0, 1), Err(Error::NoNotes));
    assert_eq!(plain.noted_tags().err(), Some(Error::NoNotes));
    assert_eq!(
        (Error::NoNotes.status(), Error::NoNotes.to_string().as_str()),
        (-37, "the pool was opened without notes")
    );
    let pool = Pool::open(&options(2, 1))?;
    pool.resize(300)?;
    let hand = pool.join()?;
    let tags: Vec<_> = hand.get_many(300)?.unwrap();
    for tag in tags.iter().filter(|tag| tag.number() % 2 == 0) {
        tag.note(u64::from(tag.number()))?;
    }
    assert_eq!(pool.resize(2), Err(Error::HandsOut));
    let wanted: Vec<_> = (0..300)
        .map(|tag| (tag, (tag % 2 == 0).then_some(u64::from(tag))))
        .collect();
    assert_eq!(noted(&pool), wanted);
    // What the loop does, the later looks find.
    let held = Mutex::new(tags);
    let all = pool.noted_tags()?.inspect(|_| held.lock().unwrap().clear()).count();
    assert_eq!((all, noted(&pool)), (64, vec![]));
    drop(held);
    drop(hand);
    pool.resize(1)?;
    Ok(())
}

/// What a thread did with a note: when it was about to publish it, had published it, and had given the tag back.
#[derive(Clone, Default)]
struct Past {
    tag: u32,
    before: Duration,
    after: Duration,
    gone: Duration,
}

/// A note that was read, and when that began.
struct Sample {
    begin: Duration,
    tag: u32,
    note: Note,
}

/// Publishes up to three notes, whose values say whose they are, and which.
fn publish(me: usize, round: u64, tag: u32, past: &mut Vec<Past>, call: impl Fn(u64) -> tags::Result<()>) {
    for _ in 0..round % 4 {
        let before = now();
        call((me as u64) << 32 | past.len() as u64).unwrap();
        let after = now();
        past.push(Past {
            tag,
            before,
            after,
            ..Past::default()
        });
    }
}

fn hold(me: usize, hand: &Hand) -> Vec<Past> {
    let mut past = Vec::new();
    for round in 0..ROUNDS {
        let first = past.len();
        let Some(tag) = hand.get().unwrap() else { continue };
        publish(me, round, tag.number(), &mut past, |value| tag.note(value));
        if round % 5 == 0 {
            drop(hand.take(tag.post()).unwrap());
        } else {
            drop(tag);
        }
        let gone = now();
        past[first..].iter_mut().for_each(|it| it.gone = gone);
    }
    past
}

fn hold_shared(me: usize, hands: &SharedHands) -> Vec<Past> {
    let mut past = Vec::new();
    for round in 0..ROUNDS {
        let first = past.len();
        let Some(tag) = hands.get().unwrap() else { continue };
        publish(me, round, tag.number(), &mut past, |value| tag.note(value));
        drop(tag);
        let gone = now();
        past[first..].iter_mut().for_each(|it| it.gone = gone);
    }
    past
}

/// Reads until the threads have ended. The note of the steady tag is always there.
fn read(pool: &Pool, steady: (u32, Note), is_over: &AtomicBool, reads: &AtomicUsize) -> Vec<Sample> {
    let mut samples = Vec::new();
    while !is_over.load(SeqCst) {
        let begin = now();
        let all: Vec<_> = pool.noted_tags().unwrap().collect();
        assert!(all.contains(&(steady.0, Some(steady.1))));
        let others = all.into_iter().filter(|it| it.0 != steady.0);
        let found = others.filter_map(|(tag, note)| note.map(|note| Sample { begin, tag, note }));
        samples.extend(found.take(50_000 - samples.len().min(50_000)));
        reads.fetch_add(1, SeqCst);
    }
    samples
}

fn follow_many(options: &Options) {
    let pool = Pool::open(options).unwrap();
    let (own, hands) = (pool.join().unwrap(), pool.share(2).unwrap());
    let steady = own.get_reserved().unwrap().unwrap();
    steady.note(1).unwrap();
    let note = pool.noted_tags().unwrap().next().and_then(|it| it.1).unwrap();
    let steady_one = (steady.number(), note);
    let (is_over, reads) = (AtomicBool::new(false), AtomicUsize::new(0));
    let (past, samples) = thread::scope(|threads| {
        let read = || read(&pool, steady_one, &is_over, &reads);
        let readers = [threads.spawn(read), threads.spawn(read)];
        while reads.load(SeqCst) == 0 {
            thread::yield_now();
        }
        let holders: Vec<_> = (0..5)
            .map(|me| {
                let (pool, hands) = (&pool, &hands);
                threads.spawn(move || match me {
                    0..3 => hold(me, &pool.join().unwrap()),
                    _ => hold_shared(me, hands),
                })
            })
            .collect();
        let past: Vec<_> = holders.into_iter().map(|it| it.join().unwrap()).collect();
        is_over.store(true, SeqCst);
        let samples = readers.into_iter().flat_map(|it| it.join().unwrap());
        (past, samples.collect::<Vec<_>>())
    });
    for Sample { begin, tag, note } in samples {
        let past = &past[(note.value >> 32) as usize][(note.value & 0xffff_ffff) as usize];
        assert!(past.tag == tag && past.before <= note.since && note.since <= past.after);
        assert!(past.gone >= begin, "a note of a user who had given the tag back");
    }
}

#[test]
fn notes_are_those_of_the_users_of_their_tags() {
    let few = Options {
        reserved: 1,
        ..options(4, 8)
    };
    follow_many(&few);
    follow_many(&Options {
        reserved: 1,
        ..options(300, 8)
    });
    follow_many(&Options { cache: 2, ..few });
}
